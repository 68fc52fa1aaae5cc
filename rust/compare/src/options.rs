//! The command line.
use std::path::PathBuf;
use std::time::{SystemTime, UNIX_EPOCH};

/// So many cases without a number on the command line.
const CASES: u64 = 200_000;

pub struct Options {
    pub cases: u64,
    pub seed: u64,
    pub first: u64,
    pub label: Option<PathBuf>,
    pub depots: Option<PathBuf>,
    pub aloud: bool,
}

impl Options {
    pub fn from_command_line() -> Result<Options, String> {
        let mut options = Options {
            cases: CASES,
            seed: of_clock(),
            first: 0,
            label: std::env::var_os("GRAINBODKIN_LABEL").map(PathBuf::from),
            depots: None,
            aloud: false,
        };
        let mut numbers = Vec::new();
        let mut words = std::env::args().skip(1);
        while let Some(word) = words.next() {
            match word.as_str() {
                "--label" => {
                    let path = words.next().ok_or("--label wants a path")?;
                    options.label = Some(PathBuf::from(path));
                }
                "--depots" => {
                    let path = words.next().ok_or("--depots wants a path")?;
                    options.depots = Some(PathBuf::from(path));
                }
                "--aloud" => options.aloud = true,
                _ => numbers.push(
                    word.parse::<u64>()
                        .map_err(|_| format!("no number: {word}"))?,
                ),
            }
        }
        if numbers.len() > 3 {
            let usage = "compare [CASES] [SEED] [FIRST] [--label PATH] [--depots PATH] [--aloud]";
            return Err(usage.to_string());
        }
        let mut numbers = numbers.into_iter();
        options.cases = numbers.next().unwrap_or(options.cases);
        options.seed = numbers.next().unwrap_or(options.seed);
        options.first = numbers.next().unwrap_or(options.first);
        Ok(options)
    }
}

/// A seed that differs from run to run.
fn of_clock() -> u64 {
    let since = SystemTime::now().duration_since(UNIX_EPOCH);
    since.map_or(1, |time| time.as_millis() as u64)
}
