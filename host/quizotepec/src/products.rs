use crate::answer::unless_refused;
use crate::raw;
use crate::Refusal;

/// What products and comments hold.
#[derive(Clone, Copy, Debug, PartialEq, Eq, Hash)]
pub struct Products {
    /// How many products there are.
    pub products: usize,
    /// How many outermost comments.
    pub comments: usize,
    /// The deepest level of comments; 0 without comments.
    pub deepest: usize,
}

/// Reads products and comments, with blanks between.
///
/// ```
/// use quizotepec::{products_read, Refusal};
/// let read = products_read(b"CERN-LineMode/2.15 (a (b)) libwww/2.17b3").unwrap();
/// assert_eq!((read.products, read.comments, read.deepest), (2, 1, 2));
/// // The ninth open level is refused.
/// assert_eq!(products_read(b"((((((((("), Err(Refusal::CommentTooDeep { place: 8 }));
/// ```
pub fn products_read(value: &[u8]) -> Result<Products, Refusal> {
    // SAFETY: the pointer is valid for reads of the length.
    let p = unsafe { raw::qz_products_read(value.as_ptr(), value.len()) };
    let products = Products { products: p.products, comments: p.comments, deepest: p.deepest };
    unless_refused(p.number, p.place, products)
}
