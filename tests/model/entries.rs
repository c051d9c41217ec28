// The compiled entries as C calls them, through the static libraries of `try_c_index`, `try_c_search` and `try_c_text`. A program that uses some of them needs the libraries of these alone.
use crate::index::Row;
use crate::lent::{Answer, Asked, Buffers, Head, Lent, Lists, Searched};

unsafe extern "C" {
    fn index_audit(series: *const i32, n: usize, head: Head, rows: *const Row, count: usize, left: *const u32, lefts: usize, right: *const u32, rights: usize) -> Answer;
    fn index_build(
        series: *const i32, n: usize, w: u32, d: u32, g: u32, rows: *mut Row, count: usize, left: *mut u32, lefts: usize, right: *mut u32, rights: usize,
    ) -> Answer;
    fn index_extend(
        series: *const i32, n: usize, head: Head, from: *const Row, count0: usize, left0: *const u32, lefts0: usize, right0: *const u32, rights0: usize,
        rows: *mut Row, count: usize, left: *mut u32, lefts: usize, right: *mut u32, rights: usize,
    ) -> Answer;
    fn index_search(
        series: *const i32, n: usize, head: Head, rows: *const Row, count: usize, left: *const u32, lefts: usize, right: *const u32, rights: usize, asked: Asked, query: *const i32, m: usize,
        first: *mut u32, firsts: usize, last: *mut u32, lasts: usize, scratch: *mut u16, counts: usize, offsets: *mut u32, entries: usize, distances: *mut u64, sizes: usize,
    ) -> Searched;
    fn text_write(head: Head, rows: *const Row, count: usize, left: *const u32, lefts: usize, right: *const u32, rights: usize, text: *mut u8, size: usize) -> Answer;
    fn text_read(text: *const u8, size: usize, rows: *mut Row, count: usize, left: *mut u32, lefts: usize, right: *mut u32, rights: usize) -> Answer;
}

pub fn build(s: &[i32], w: u32, d: u32, g: u32, b: &mut Buffers) -> Answer {
    unsafe { index_build(s.as_ptr(), s.len(), w, d, g, b.rows.as_mut_ptr(), b.rows.len(), b.left.as_mut_ptr(), b.left.len(), b.right.as_mut_ptr(), b.right.len()) }
}

pub fn extend(s: &[i32], x: &Lent, b: &mut Buffers) -> Answer {
    unsafe {
        index_extend(
            s.as_ptr(), s.len(), x.head, x.rows.as_ptr(), x.rows.len(), x.left.as_ptr(), x.left.len(), x.right.as_ptr(), x.right.len(),
            b.rows.as_mut_ptr(), b.rows.len(), b.left.as_mut_ptr(), b.left.len(), b.right.as_mut_ptr(), b.right.len(),
        )
    }
}

pub fn audit(s: &[i32], x: &Lent) -> Answer {
    unsafe { index_audit(s.as_ptr(), s.len(), x.head, x.rows.as_ptr(), x.rows.len(), x.left.as_ptr(), x.left.len(), x.right.as_ptr(), x.right.len()) }
}

pub fn search(s: &[i32], x: &Lent, a: Asked, q: &[i32], b: &mut Lists) -> Searched {
    unsafe {
        index_search(
            s.as_ptr(), s.len(), x.head, x.rows.as_ptr(), x.rows.len(), x.left.as_ptr(), x.left.len(), x.right.as_ptr(), x.right.len(), a, q.as_ptr(), q.len(),
            b.first.as_mut_ptr(), b.first.len(), b.last.as_mut_ptr(), b.last.len(), b.scratch.as_mut_ptr(), b.scratch.len(), b.offsets.as_mut_ptr(), b.offsets.len(), b.distances.as_mut_ptr(), b.distances.len(),
        )
    }
}

pub fn write(x: &Lent, text: &mut [u8]) -> Answer {
    unsafe { text_write(x.head, x.rows.as_ptr(), x.rows.len(), x.left.as_ptr(), x.left.len(), x.right.as_ptr(), x.right.len(), text.as_mut_ptr(), text.len()) }
}

pub fn read(text: &[u8], b: &mut Buffers) -> Answer {
    unsafe { text_read(text.as_ptr(), text.len(), b.rows.as_mut_ptr(), b.rows.len(), b.left.as_mut_ptr(), b.left.len(), b.right.as_mut_ptr(), b.right.len()) }
}
