//! Holds the store in types: what its bytes say of themselves, and the opening of one.

use std::error::Error;
use std::fmt;

use crate::{boundary, PageId, MOST_ROWS};

/// The bytes that are lent for a store.
pub const STORE_BYTES: usize = 65_536;

/// Where the rows begin in a store.
const LIST: usize = 16;

/// What a store says of itself.
#[derive(Clone, Copy, Debug, PartialEq, Eq)]
pub struct Stored<'a> {
    /// Which page it is open for.
    pub id: PageId,
    /// The rows that it accepted, repeats too: a list for [`read_list`](crate::read_list) and
    /// [`read_both`](crate::read_both).
    pub list: &'a [u8],
}

impl Stored<'_> {
    /// How many rows it accepted, repeats too.
    pub fn rows(&self) -> usize {
        self.list.len() / self.id.row_bytes()
    }
}

/// Why bytes are not taken for a store.
#[derive(Clone, Copy, Debug, PartialEq, Eq)]
pub enum StoreRefusal {
    /// 3: they are fewer than [`STORE_BYTES`].
    Short,
    /// 10: what stands there for n, L or the number of rows is out of range, as in a buffer of zeros
    /// in which no store was opened.
    Header,
}

impl StoreRefusal {
    /// Document 02's number, 3 or 10.
    pub fn number(self) -> u8 {
        match self {
            StoreRefusal::Short => 3,
            StoreRefusal::Header => 10,
        }
    }
}

impl fmt::Display for StoreRefusal {
    fn fmt(&self, f: &mut fmt::Formatter) -> fmt::Result {
        let reason = match self {
            StoreRefusal::Short => "a store has 65536 bytes, and these are fewer",
            StoreRefusal::Header => "n, L or the number of rows in the store is out of range",
        };
        write!(f, "refused {}: {reason}", self.number())
    }
}

impl Error for StoreRefusal {}

/// What a store says of itself: its page, and the rows that it accepted.
///
/// It refuses the bytes that [`offer`](crate::offer) and [`ask`](crate::ask) refuse. That others are
/// a store, it does not say: it looks at n, L and the number of rows only.
///
/// ```
/// use mekorvat::{open, stored, PageId, StoreRefusal, STORE_BYTES};
///
/// let mut store = vec![0; STORE_BYTES];
/// assert_eq!(stored(&store), Err(StoreRefusal::Header));
///
/// let id = PageId { page_number: 5, n: 1, l: 1 };
/// open(&mut store, id)?;
/// let told = stored(&store).unwrap();
/// assert_eq!((told.id, told.rows()), (id, 0));
/// # Ok::<(), mekorvat::OpenRefusal>(())
/// ```
pub fn stored(store: &[u8]) -> Result<Stored<'_>, StoreRefusal> {
    if store.len() < STORE_BYTES {
        return Err(StoreRefusal::Short);
    }
    let id = PageId {
        page_number: u32::from_be_bytes([store[0], store[1], store[2], store[3]]),
        n: store[4],
        l: store[5],
    };
    let rows = usize::from(u16::from_be_bytes([store[6], store[7]]));
    if !id.in_range() || rows > MOST_ROWS {
        return Err(StoreRefusal::Header);
    }
    Ok(Stored {
        id,
        list: &store[LIST..LIST + rows * id.row_bytes()],
    })
}

/// Why a store is not opened; the bytes are then as they were.
#[derive(Clone, Copy, Debug, PartialEq, Eq)]
pub enum OpenRefusal {
    /// 1: n or L is out of range.
    Shape,
    /// 3: there are fewer than [`STORE_BYTES`] bytes.
    Room,
}

impl OpenRefusal {
    /// Document 02's number, 1 or 3.
    pub fn number(self) -> u8 {
        match self {
            OpenRefusal::Shape => 1,
            OpenRefusal::Room => 3,
        }
    }
}

impl fmt::Display for OpenRefusal {
    fn fmt(&self, f: &mut fmt::Formatter) -> fmt::Result {
        let reason = match self {
            OpenRefusal::Shape => "n or L is out of range",
            OpenRefusal::Room => "a store has 65536 bytes, and these are fewer",
        };
        write!(f, "refused {}: {reason}", self.number())
    }
}

impl Error for OpenRefusal {}

/// Opens a store for a page, in the first [`STORE_BYTES`] bytes; what stood there is forgotten.
///
/// A store keeps the rows of the frames that are offered to it, and the working of their
/// elimination, so that [`ask`](crate::ask) need not begin anew. It is plain bytes, and can be
/// copied, or written to a file.
///
/// ```
/// use mekorvat::{offer, open, stored, OpenRefusal, PageId, STORE_BYTES};
///
/// let mut store = vec![170; STORE_BYTES + 1];
/// open(&mut store, PageId { page_number: 5, n: 1, l: 1 })?;
/// assert_eq!(store[STORE_BYTES], 170);
///
/// let frame = [1, 0, 4, 0, 0, 0, 5, 2, 0, 2, 1, 1, 3, 0, 4, 0, 0, 0, 2, 4, 0, 1, 9];
/// offer(&mut store, &frame).unwrap();
/// assert_eq!(stored(&store).unwrap().list, [0, 0, 0, 2, 0, 0, 0, 0, 0, 0, 0, 1, 9]);
///
/// // Refused, it is as it was; opened again, it has no rows.
/// let refused = open(&mut store, PageId { page_number: 6, n: 65, l: 1 });
/// assert_eq!(refused, Err(OpenRefusal::Shape));
/// assert_eq!(stored(&store).unwrap().rows(), 1);
/// open(&mut store, PageId { page_number: 6, n: 64, l: 1 })?;
/// assert_eq!(stored(&store).unwrap().rows(), 0);
/// # Ok::<(), OpenRefusal>(())
/// ```
pub fn open(store: &mut [u8], id: PageId) -> Result<(), OpenRefusal> {
    match boundary::open(store, id.page_number, id.n, id.l) {
        0 => Ok(()),
        1 => Err(OpenRefusal::Shape),
        3 => Err(OpenRefusal::Room),
        _ => unreachable!("an opening is refused by 1 or 3, which is proved"),
    }
}
