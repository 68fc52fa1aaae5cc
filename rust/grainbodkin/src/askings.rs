//! The askings of an owned list, each for a cart. Each takes memory for its sheets, for so long as
//! it needs them.

use crate::{
    Cart, Chooser, Clear, Distances, Drive, Finding, Hops, Labels, Lines, Markers, Place, Refusal,
    Region, LONGEST_FILE,
};

impl Markers {
    /// Labels the map for a cart.
    ///
    /// ```
    /// use grainbodkin::{Cart, Map, Markers, Place};
    ///
    /// let cart = Cart::new(20);
    /// // Rocks (0,0) and (1,1) shut (1,0) and (0,1).
    /// let mut markers = Markers::new(Map::new(8, 8)?, 2);
    /// markers.enter(1, Place::new(0, 0), 30)?;
    /// markers.enter(2, Place::new(1, 1), 30)?;
    /// let labels = markers.label(cart)?;
    /// assert_eq!((labels.rocks(), labels.shut(), labels.groups()), (2, 2, 1));
    /// # Ok::<(), grainbodkin::Refusal>(())
    /// ```
    ///
    /// # Errors
    ///
    /// Passes a refusal of the library on. A list, map and sheet of this type are never at fault,
    /// so that none of 1, 2 and 3 is given.
    pub fn label(&self, cart: Cart) -> Result<Labels, Refusal> {
        let mut sheet = self.sheet();
        let numbers = self.lend(cart).label(&mut sheet)?;
        Ok(Labels::new(self.map(), sheet, numbers))
    }

    /// How many sweeps the labelling takes that change something, starting from the rocks alone. In
    /// a sweep all crossings are judged together on the state before it, and those open ones with
    /// two or more closed neighbours become closed. The number is never more than the shut
    /// crossings, and 0 exactly if there are none.
    ///
    /// ```
    /// use grainbodkin::{Cart, Map, Markers, Place};
    ///
    /// let cart = Cart::new(20);
    /// // A diagonal of four rocks closes a square of four by four: first the crossings beside it,
    /// // last the two corners farthest from it.
    /// let mut markers = Markers::new(Map::new(8, 8)?, 4);
    /// for (id, at) in [(1, 0), (2, 1), (3, 2), (4, 3)] {
    ///     markers.enter(id, Place::new(at, at), 30)?;
    /// }
    /// assert_eq!(markers.sweeps(cart)?, 3);
    /// assert_eq!(markers.label(cart)?.shut(), 12);
    ///
    /// // A cart that passes over the stones has nothing shut.
    /// assert_eq!(markers.sweeps(Cart::new(30))?, 0);
    /// # Ok::<(), grainbodkin::Refusal>(())
    /// ```
    ///
    /// # Errors
    ///
    /// Passes a refusal of the library on. A list, map and sheet of this type are never at fault,
    /// so that none of 1, 2 and 3 is given.
    pub fn sweeps(&self, cart: Cart) -> Result<usize, Refusal> {
        self.lend(cart).sweeps(&mut self.sheet())
    }

    /// The four clear distances of a crossing.
    ///
    /// # Errors
    ///
    /// Refuses 4.
    ///
    /// ```
    /// use grainbodkin::{Cart, Clear, Map, Markers, Place, NO_DISTANCE};
    ///
    /// let cart = Cart::new(20);
    /// let mut markers = Markers::new(Map::new(8, 8)?, 3);
    /// for (id, x, y) in [(1, 3, 2), (2, 4, 3), (3, 5, 2)] {
    ///     markers.enter(id, Place::new(x, y), 30)?;
    /// }
    /// assert_eq!(markers.distances(cart, Place::new(0, 2))?, Clear::from([3, NO_DISTANCE, NO_DISTANCE, NO_DISTANCE]));
    /// assert_eq!(markers.distances(cart, Place::new(4, 0))?.north, Some(2));
    /// assert_eq!(markers.distances(cart, Place::new(4, 2))?, Clear::from([0; 4]));
    /// # Ok::<(), grainbodkin::Refusal>(())
    /// ```
    pub fn distances(&self, cart: Cart, place: Place) -> Result<Clear, Refusal> {
        self.lend(cart).distances(place, &mut self.sheet())
    }

    /// The clear distances of the whole map. [`Distances`] has an example.
    ///
    /// # Errors
    ///
    /// Passes a refusal of the library on. A list, map and sheet of this type are never at fault,
    /// so that none of 1, 2 and 3 is given.
    pub fn measure(&self, cart: Cart) -> Result<Distances, Refusal> {
        let mut sheets = [0; 4].map(|zero| vec![zero; self.map().crossings()]);
        let [east, south, west, north] = &mut sheets;
        self.lend(cart)
            .measure(&mut self.sheet(), east, south, west, north)?;
        Ok(Distances::new(self.map(), sheets))
    }

    /// Whether home is assured for a place: both are open and, on each axis, the offset from home
    /// to the place is 0, or home's distance that way is none, or the offset is at most that
    /// distance.
    ///
    /// # Errors
    ///
    /// Refuses 4 or 8.
    ///
    /// ```
    /// use grainbodkin::{Cart, Markers, Place, Refusal};
    ///
    /// let cart = Cart::new(20);
    /// // Rocks (3,2), (4,3), (5,2).
    /// let file = b"P1 8 8 00000000 00000000 00000000 00000000 00001000 00010100 00000000 00000000";
    /// let markers = Markers::read(file, 3)?;
    /// let home = Place::new(0, 2);
    /// assert!(markers.assured(cart, home, Place::new(2, 5))?);
    /// assert!(markers.assured(cart, home, Place::new(3, 5))?);
    /// assert!(!markers.assured(cart, home, Place::new(4, 5))?);
    /// assert_eq!(markers.assured(cart, home, Place::new(4, 2)), Err(Refusal::EndClosed));
    /// # Ok::<(), Refusal>(())
    /// ```
    pub fn assured(&self, cart: Cart, home: Place, place: Place) -> Result<bool, Refusal> {
        self.lend(cart).assured(home, place, &mut self.sheet())
    }

    /// Every permitted hop from a place towards home. [`Hops`] has an example.
    ///
    /// # Errors
    ///
    /// Refuses 4, 8 or 11.
    pub fn hop(&self, cart: Cart, home: Place, place: Place) -> Result<Hops, Refusal> {
        self.lend(cart).hop(home, place, &mut self.sheet())
    }

    /// The region of shortest drives from s to d, for every open pair, assured or not.
    ///
    /// # Errors
    ///
    /// Refuses 4, 8 or 9.
    ///
    /// ```
    /// use grainbodkin::{Cart, Chooser, Map, Markers, Place, Refusal};
    ///
    /// let cart = Cart::new(20);
    /// let mut markers = Markers::new(Map::new(8, 8)?, 3);
    /// for (id, x, y) in [(1, 3, 2), (2, 4, 3), (3, 5, 2)] {
    ///     markers.enter(id, Place::new(x, y), 30)?;
    /// }
    /// let s = Place::new(0, 2);
    /// assert_eq!(markers.region(cart, s, Place::new(7, 2)), Err(Refusal::NoDrive));
    /// assert!(markers.region(cart, s, Place::new(7, 4))?.contains(Place::new(0, 4)));
    /// assert_eq!(markers.drive(cart, s, Place::new(7, 4), &mut Chooser(0))?.hops(), 9);
    /// # Ok::<(), Refusal>(())
    /// ```
    pub fn region(&self, cart: Cart, s: Place, d: Place) -> Result<Region, Refusal> {
        let mut region = self.sheet();
        self.lend(cart)
            .region(s, d, &mut self.sheet(), &mut region)?;
        Ok(Region::new(self.map(), region))
    }

    /// A shortest drive from s to d, made by the chooser, which moves on. [`Drive`] has an example.
    ///
    /// # Errors
    ///
    /// Refuses 4, 8 or 9; then the chooser is unchanged.
    pub fn drive(
        &self,
        cart: Cart,
        s: Place,
        d: Place,
        chooser: &mut Chooser,
    ) -> Result<Drive, Refusal> {
        // No shortest drive has more crossings than a row and a column together.
        let mut route = vec![0; self.map().width() + self.map().height()];
        let length = self.drive_into(cart, s, d, &mut route, chooser)?.len();
        route.truncate(length);
        Ok(Drive::new(self.map(), route))
    }

    /// A shortest drive from s to d into a lent route: hands back the filled part of it, s first
    /// and d last. The rest of the route is unchanged.
    ///
    /// # Errors
    ///
    /// Refuses 4, 8, 9 or 10; then route and chooser are unchanged.
    ///
    /// ```
    /// use grainbodkin::{Cart, Chooser, Map, Markers, Place, Refusal};
    ///
    /// let cart = Cart::new(20);
    /// // On a map 1 by 1 without rocks, (0,0) to itself is a drive of one crossing; with a rock
    /// // it is refused.
    /// let mut markers = Markers::new(Map::new(1, 1)?, 1);
    /// let here = Place::new(0, 0);
    /// let (mut route, mut chooser) = ([9, 9], Chooser(7));
    /// assert_eq!(markers.drive_into(cart, here, here, &mut route, &mut chooser)?, [0]);
    /// assert_eq!((route, chooser), ([0, 9], Chooser(7)));
    ///
    /// markers.enter(1, here, 30)?;
    /// let refused = markers.drive_into(cart, here, here, &mut route, &mut chooser);
    /// assert_eq!(refused, Err(Refusal::EndClosed));
    /// # Ok::<(), Refusal>(())
    /// ```
    pub fn drive_into<'r>(
        &self,
        cart: Cart,
        s: Place,
        d: Place,
        route: &'r mut [u16],
        chooser: &mut Chooser,
    ) -> Result<&'r mut [u16], Refusal> {
        let (mut labels, mut region) = (self.sheet(), self.sheet());
        self.lend(cart)
            .drive(s, d, &mut labels, &mut region, route, chooser)
    }

    /// What is found of a drive that was drawn by hand, a list of crossing numbers: accepted
    /// exactly if it is a shortest drive from s to d, otherwise the position of the first crossing
    /// at fault and why. Every [`Drive`] is accepted over the same markers, for its own cart and for
    /// every cart with more clearance. [`Finding`] has an example.
    ///
    /// # Errors
    ///
    /// Refuses 4 or 8.
    ///
    /// ```
    /// use grainbodkin::{Cart, Chooser, Finding, Map, Markers, Place};
    ///
    /// let cart = Cart::new(20);
    /// let mut markers = Markers::new(Map::new(8, 8)?, 3);
    /// for (id, x, y) in [(1, 3, 2), (2, 4, 3), (3, 5, 2)] {
    ///     markers.enter(id, Place::new(x, y), 30)?;
    /// }
    /// let (s, d) = (Place::new(0, 2), Place::new(7, 4));
    /// let drive = markers.drive(cart, s, d, &mut Chooser(1))?;
    /// assert_eq!(markers.check(cart, s, d, drive.numbers())?, Finding::Accepted);
    /// # Ok::<(), grainbodkin::Refusal>(())
    /// ```
    pub fn check(&self, cart: Cart, s: Place, d: Place, drawn: &[u16]) -> Result<Finding, Refusal> {
        self.lend(cart).check(s, d, &mut self.sheet(), drawn)
    }

    /// The crossing lines of s and d, or that there are none. [`Lines`] has an example.
    ///
    /// # Errors
    ///
    /// Refuses 4 or 8.
    pub fn lines(&self, cart: Cart, s: Place, d: Place) -> Result<Option<Lines>, Refusal> {
        self.lend(cart).lines(s, d, &mut self.sheet())
    }

    /// The drive from s to d by way of the crossing where their crossing lines meet, made by the
    /// chooser, which moves on. It is a shortest drive.
    ///
    /// # Errors
    ///
    /// Refuses 4, 8 or 19; then the chooser is unchanged.
    ///
    /// ```
    /// use grainbodkin::{Cart, Chooser, Finding, Map, Markers, Place};
    ///
    /// let cart = Cart::new(20);
    /// let mut markers = Markers::new(Map::new(8, 8)?, 1);
    /// markers.enter(1, Place::new(1, 0), 30)?;
    /// let (s, d) = (Place::new(0, 0), Place::new(4, 3));
    /// let lines = markers.lines(cart, s, d)?.expect("there are lines");
    /// let drive = markers.lines_drive(cart, s, d, &mut Chooser(0))?;
    /// assert!(drive.places().any(|place| place == lines.meeting()));
    /// assert_eq!(markers.check(cart, s, d, drive.numbers())?, Finding::Accepted);
    /// # Ok::<(), grainbodkin::Refusal>(())
    /// ```
    pub fn lines_drive(
        &self,
        cart: Cart,
        s: Place,
        d: Place,
        chooser: &mut Chooser,
    ) -> Result<Drive, Refusal> {
        // No shortest drive has more crossings than a row and a column together.
        let mut route = vec![0; self.map().width() + self.map().height()];
        let (mut labels, mut region) = (self.sheet(), self.sheet());
        let list = self.lend(cart);
        let filled = list.lines_drive(s, d, &mut labels, &mut region, &mut route, chooser)?;
        let length = filled.len();
        route.truncate(length);
        Ok(Drive::new(self.map(), route))
    }

    /// Writes the cart's rocks as a PBM map, P4. Reading it gives the same crossings, with markers
    /// as high as can be: a file keeps no heights.
    ///
    /// # Errors
    ///
    /// Refuses 16: of two markers on one crossing, whatever their heights.
    ///
    /// ```
    /// use grainbodkin::{Cart, Markers};
    ///
    /// let cart = Cart::new(20);
    /// let markers = Markers::read(b"P1 4 3 0010 0100 0000", 2)?;
    /// let file = markers.write(cart)?;
    /// assert_eq!(file, b"P4\n4 3\n\x20\x40\x00");
    /// assert_eq!(Markers::read(&file, 2)?, markers);
    /// # Ok::<(), grainbodkin::Refusal>(())
    /// ```
    pub fn write(&self, cart: Cart) -> Result<Vec<u8>, Refusal> {
        let mut out = vec![0; LONGEST_FILE];
        let bytes = self.lend(cart).write(&mut out)?;
        out.truncate(bytes);
        Ok(out)
    }

    /// Zeros, one byte a crossing.
    fn sheet(&self) -> Vec<u8> {
        vec![0; self.map().crossings()]
    }
}
