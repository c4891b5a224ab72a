//! Holds the owner of all buffers, with which an app reads one page from the frames it sees.

use std::fmt;

use crate::repeats::{place_of, row_bytes};
use crate::{
    ask, lay, marks, offer, open, read_both, read_frame, stored, Answer, Both, LayRefusal, Mark,
    Next, Other, Page, PageId, Second, Versions, LONGEST_PAGE, LONGEST_ROW, MOST_ROWS,
    SCRATCH_BYTES, STORE_BYTES,
};

/// The reading of one page from frames as they come.
///
/// It offers good frames to a store of its own, which keeps the working between frames, and asks
/// that store whenever it is read. A frame that is held on the screen takes one row, however often
/// it is offered. It allocates when it is made, 128,000 bytes, of which the store has 65,536 and the
/// scratch 32,768; offering and reading allocate nothing.
///
/// The store can be saved and gone on with: see [`store`](Scan::store) and
/// [`resume`](Scan::resume).
#[derive(Clone)]
pub struct Scan {
    expected: Option<PageId>,
    /// Open for the expected page once that is known, if its n and L are in range. No two of its
    /// rows are equal.
    store: Vec<u8>,
    held: usize,
    answer: Option<Answer>,
    first: Buffers,
    second_list: Vec<u8>,
    second: Buffers,
    scratch: Vec<u8>,
}

/// What is lent for a reading, list and scratch apart, for any page.
#[derive(Clone)]
struct Buffers {
    page: Vec<u8>,
    uses: Vec<u8>,
    roles: Vec<u8>,
}

impl Buffers {
    fn new() -> Self {
        Buffers {
            page: vec![0; LONGEST_PAGE],
            uses: vec![0; 2 * MOST_ROWS],
            roles: vec![0; MOST_ROWS],
        }
    }

    /// The page that a reading of so many rows left here, if its answer gives one.
    fn page(&self, id: PageId, answer: Answer, rows: usize) -> Option<Page<'_>> {
        let Answer::Page { rank, agreement } = answer else {
            return None;
        };
        Some(Page {
            id,
            bytes: &self.page[..id.page_bytes()],
            rows,
            rank,
            agreement,
            confirmed: answer.confirmed(&self.uses, &self.roles),
        })
    }
}

impl Scan {
    /// A scan whose page is set by the first good frame.
    pub fn new() -> Self {
        Scan {
            expected: None,
            // Until it is opened, it is refused.
            store: vec![0; STORE_BYTES],
            held: 0,
            answer: None,
            first: Buffers::new(),
            second_list: vec![0; MOST_ROWS * LONGEST_ROW],
            second: Buffers::new(),
            scratch: vec![0; SCRATCH_BYTES],
        }
    }

    /// A scan of a known page: frames of any other are refused from the start.
    pub fn of_page(expected: PageId) -> Self {
        let mut scan = Scan::new();
        scan.expect(expected);
        scan
    }

    /// Sets the page, and opens the store for it. For an n or an L out of range none can be opened;
    /// then every frame is refused by 1.
    fn expect(&mut self, expected: PageId) {
        self.expected = Some(expected);
        let _ = open(&mut self.store, expected);
    }

    /// The store that the scan stands on: [`STORE_BYTES`] plain bytes, which can be written to a
    /// file, and with which [`resume`](Scan::resume) goes on. None before the page is known, and
    /// where its n or L is out of range.
    ///
    /// [`stored`] says what is in it.
    pub fn store(&self) -> Option<&[u8]> {
        let open = stored(&self.store).is_ok();
        open.then_some(&self.store)
    }

    /// The page that is expected; None before the first good frame.
    pub fn expected(&self) -> Option<PageId> {
        self.expected
    }

    /// How many rows are laid, no two of them equal.
    pub fn rows(&self) -> usize {
        stored(&self.store).map_or(0, |stored| stored.rows())
    }

    /// The rows that are laid.
    fn list(&self) -> &[u8] {
        stored(&self.store).map_or(&[], |stored| stored.list)
    }

    /// How many frames were offered whose row was laid already: frames that were held on the
    /// screen, or shown again.
    pub fn held(&self) -> usize {
        self.held
    }

    /// Lays a frame, and gives the arrival number of its row.
    ///
    /// A refused frame changes nothing. Nor does a frame whose row is laid already: it would add
    /// nothing to a reading, and only take a place in the list. Once there are 512 rows every frame
    /// of the page is refused, held or not.
    ///
    /// ```
    /// use mekorvat::{FrameRefusal, LayRefusal, Scan};
    ///
    /// let mut scan = Scan::new();
    /// let page_5 = [1, 0, 4, 0, 0, 0, 5, 2, 0, 2, 1, 1, 3, 0, 4, 0, 0, 0, 0, 4, 0, 1, 7];
    /// let page_6 = [1, 0, 4, 0, 0, 0, 6, 2, 0, 2, 1, 1, 3, 0, 4, 0, 0, 0, 0, 4, 0, 1, 7];
    /// assert_eq!(scan.offer(&page_5), Ok(0));
    /// assert_eq!(scan.offer(&page_6), Err(LayRefusal::OtherPage));
    /// let cut_off = FrameRefusal::Short { place: 21 };
    /// assert_eq!(scan.offer(&page_5[..21]), Err(LayRefusal::Frame(cut_off)));
    ///
    /// // The next frame, and then the first again: it has its row.
    /// let next = [1, 0, 4, 0, 0, 0, 5, 2, 0, 2, 1, 1, 3, 0, 4, 0, 0, 0, 1, 4, 0, 1, 7];
    /// assert_eq!(scan.offer(&next), Ok(1));
    /// assert_eq!(scan.offer(&page_5), Ok(0));
    /// assert_eq!((scan.rows(), scan.held()), (2, 1));
    /// ```
    pub fn offer(&mut self, frame: &[u8]) -> Result<usize, LayRefusal> {
        let expected = match self.expected {
            Some(expected) => expected,
            None => read_frame(frame)?.id,
        };
        // By itself first: which refusal applies, and whether the store has the row.
        let mut row = [0; LONGEST_ROW];
        lay(frame, expected, 0, &mut row)?;
        let arrival = self.rows();
        if arrival == MOST_ROWS {
            return Err(LayRefusal::List);
        }
        if let Some(earlier) = place_of(&row[..row_bytes(expected.l)], self.list()) {
            self.held += 1;
            return Ok(earlier);
        }
        if self.expected.is_none() {
            self.expect(expected);
        }
        let offered = offer(&mut self.store, frame);
        offered.expect("its row is laid, and there is a place for it in the store");
        self.answer = None;
        Ok(arrival)
    }

    /// Reads the rows laid so far: the page, or what to do next.
    ///
    /// A page is what the rows so far say, and more of them may say otherwise. The n picked rows
    /// always agree with it, and only rows beyond these confirm it. Scan on until it is confirmed:
    ///
    /// ```
    /// use mekorvat::{Next, Scan};
    ///
    /// let mut scan = Scan::new();
    /// let mut frame = [1, 0, 4, 0, 0, 0, 5, 2, 0, 2, 1, 1, 3, 0, 4, 0, 0, 0, 0, 4, 0, 1, 7];
    /// assert_eq!(scan.read(), Err(Next::ScanMore));
    ///
    /// scan.offer(&frame)?; // misread, but the only row so far
    /// let page = scan.read().unwrap();
    /// assert_eq!((page.bytes, page.disagreeing()), (&[7][..], 0));
    /// assert!(!page.confirmed);
    ///
    /// (frame[18], frame[22]) = (1, 9);
    /// scan.offer(&frame)?; // one against one
    /// assert_eq!(scan.read(), Err(Next::ScanAgain));
    ///
    /// scan.offer(&frame)?; // held on the screen: still one against one
    /// assert_eq!(scan.read(), Err(Next::ScanAgain));
    ///
    /// frame[18] = 2;
    /// scan.offer(&frame)?; // the next frame, with a seed of its own
    /// let page = scan.read().unwrap();
    /// assert_eq!((page.bytes, page.disagreeing()), (&[9][..], 1));
    /// assert!(page.confirmed);
    /// assert_eq!(page.beyond(), 1); // both frames that say 9 agree, and one would do
    /// # Ok::<(), mekorvat::LayRefusal>(())
    /// ```
    pub fn read(&mut self) -> Result<Page<'_>, Next> {
        let Some(id) = self.expected else {
            return Err(Next::ScanMore);
        };
        let asked = ask(
            &self.store,
            &mut self.first.page,
            &mut self.first.uses,
            &mut self.first.roles,
            &mut self.scratch,
        );
        // Only a store that could not be opened is refused: n or L is out of range.
        let answer = asked.map_or(Answer::Shape, |asked| asked.answer);
        self.answer = Some(answer);
        let page = self.first.page(id, answer, self.rows());
        page.ok_or(Next::after(answer, self.rows()))
    }

    /// Reads both versions of the page: what [`read`](Scan::read) gives, and what those rows give
    /// that do not agree with it. Either version may come first, and each is confirmed by rows of
    /// its own list only.
    ///
    /// ```
    /// use mekorvat::{Other, Scan};
    ///
    /// let mut scan = Scan::new();
    /// let mut frame = [1, 0, 4, 0, 0, 0, 5, 2, 0, 2, 1, 1, 3, 0, 4, 0, 0, 0, 0, 4, 0, 1, 7];
    /// scan.offer(&frame)?; // one phone saved 7
    /// (frame[18], frame[22]) = (1, 9);
    /// scan.offer(&frame)?; // another saved 9
    /// frame[18] = 2;
    /// scan.offer(&frame)?;
    ///
    /// let versions = scan.read_both().unwrap();
    /// assert_eq!((versions.page.bytes, versions.page.agreement), (&[9][..], 2));
    /// match versions.other {
    ///     Other::None => println!("every frame agrees"),
    ///     Other::Page(other) => {
    ///         assert_eq!((other.bytes, other.agreement), (&[7][..], 1));
    ///         assert!(!other.confirmed); // one frame says so, and none checks it
    ///     }
    ///     Other::Unsettled(next) => println!("of the other frames: {next}"),
    /// }
    /// # assert!(matches!(scan.read_both().unwrap().other, Other::Page(_)));
    /// # Ok::<(), mekorvat::LayRefusal>(())
    /// ```
    pub fn read_both(&mut self) -> Result<Versions<'_>, Next> {
        let Some(id) = self.expected else {
            return Err(Next::ScanMore);
        };
        let both = read_both(
            id.n,
            id.l,
            stored(&self.store).map_or(&[], |stored| stored.list),
            &mut self.first.page,
            &mut self.first.uses,
            &mut self.first.roles,
            Second {
                list: &mut self.second_list,
                page: &mut self.second.page,
                uses: &mut self.second.uses,
                roles: &mut self.second.roles,
            },
            &mut self.scratch,
        );
        let Both {
            first,
            second,
            rows,
        } = both;
        self.answer = Some(first);
        let page = self.first.page(id, first, self.rows());
        let page = page.ok_or(Next::after(first, self.rows()))?;
        let other = match self.second.page(id, second, rows) {
            _ if rows == 0 => Other::None,
            Some(other) => Other::Page(other),
            None => Other::Unsettled(Next::after(second, self.rows())),
        };
        Ok(Versions { page, other })
    }

    /// The answer to the rows laid so far; None if they were not read since the last was laid. Of
    /// both readings it is the first one's.
    pub fn answer(&self) -> Option<Answer> {
        self.answer
    }

    /// The marks that this answer left on the rows, by arrival number; 1 to 4 leave none.
    pub fn marks(&self) -> impl Iterator<Item = Mark> + '_ {
        let marked = match self.answer {
            Some(answer) if answer.fills_marks() => self.rows(),
            _ => 0,
        };
        marks(&self.first.uses[..2 * marked], &self.first.roles[..marked])
    }
}

impl Default for Scan {
    fn default() -> Self {
        Scan::new()
    }
}

/// Without the buffers, which would fill the screen.
impl fmt::Debug for Scan {
    fn fmt(&self, f: &mut fmt::Formatter) -> fmt::Result {
        f.debug_struct("Scan")
            .field("expected", &self.expected)
            .field("rows", &self.rows())
            .field("held", &self.held)
            .field("answer", &self.answer)
            .finish_non_exhaustive()
    }
}
