//! The plain C loop (plain.c).

/// A function of plain.c: the arguments and their length, the buffer; gives the record's length.
type Loop = unsafe extern "C" fn(*const u8, usize, *mut u8) -> usize;

unsafe extern "C" {
    fn plain_array(args: *const u8, len: usize, out: *mut u8) -> usize;
    fn plain_qa(args: *const u8, len: usize, out: *mut u8) -> usize;
    fn plain_convert(args: *const u8, len: usize, out: *mut u8) -> usize;
}

#[derive(Clone, Copy)]
pub struct Plain(Loop);

impl Plain {
    pub const ARRAY: Plain = Plain(plain_array);
    pub const QA: Plain = Plain(plain_qa);
    pub const CONVERT: Plain = Plain(plain_convert);

    /// The record's length. The C checks nothing: it gets the records of this program's own arrays.
    pub fn call(self, args: &[u8], out: &mut [u8]) -> usize {
        // The head of an array is the only part that the arguments may lack.
        assert!(out.len() >= args.len() + 4, "the buffer is too short for the C loop");
        // SAFETY: the slices live through the call, and the record ends within the length just compared.
        unsafe { (self.0)(args.as_ptr(), args.len(), out.as_mut_ptr()) }
    }
}
