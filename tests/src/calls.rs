//! The calls of the static library, each behind a safe function. What a call tells is its number
//! and its out values in order, with zeros up to three; they are other numbers before the call, so
//! that one that is not told shows.
use label_book::{c, Panel, Range};

pub type Told = (u8, [u64; 3]);

const BEFORE: usize = 0x5A5A_5A5A_5A5A_5A5A;
const BEFORE_SCORE: u32 = 0x5A5A_5A5A;

/// The number, and two counts through pointers.
fn two(call: impl FnOnce(*mut usize, *mut usize) -> u8) -> Told {
    let (mut a, mut b) = (BEFORE, BEFORE);
    let number = call(&mut a, &mut b);
    (number, [a as u64, b as u64, 0])
}

/// The number, and three counts through pointers.
fn three(call: impl FnOnce(*mut usize, *mut usize, *mut usize) -> u8) -> Told {
    let (mut a, mut b, mut c) = (BEFORE, BEFORE, BEFORE);
    let number = call(&mut a, &mut b, &mut c);
    (number, [a as u64, b as u64, c as u64])
}

// Each call's pointers and lengths are those of slices, and its out pointers those of locals.

pub fn empty(dst: &mut [u8]) -> Told {
    two(|a, b| unsafe { c::label_book_empty(dst.as_mut_ptr(), dst.len(), a, b) })
}

pub fn set(book: &[u8], name: &[u8], score: u32, dst: &mut [u8]) -> Told {
    two(|a, b| unsafe {
        c::label_book_set(
            book.as_ptr(),
            book.len(),
            name.as_ptr(),
            name.len(),
            score,
            dst.as_mut_ptr(),
            dst.len(),
            a,
            b,
        )
    })
}

pub fn withdraw(book: &[u8], name: &[u8], dst: &mut [u8]) -> Told {
    two(|a, b| unsafe {
        c::label_book_withdraw(
            book.as_ptr(),
            book.len(),
            name.as_ptr(),
            name.len(),
            dst.as_mut_ptr(),
            dst.len(),
            a,
            b,
        )
    })
}

pub fn merge(first: &[u8], second: &[u8], dst: &mut [u8]) -> Told {
    two(|a, b| unsafe {
        c::label_book_merge(
            first.as_ptr(),
            first.len(),
            second.as_ptr(),
            second.len(),
            dst.as_mut_ptr(),
            dst.len(),
            a,
            b,
        )
    })
}

pub fn check(book: &[u8]) -> Told {
    two(|a, b| unsafe { c::label_book_check(book.as_ptr(), book.len(), a, b) })
}

pub fn find(book: &[u8], name: &[u8]) -> Told {
    let mut score = BEFORE_SCORE;
    let (number, mut told) = two(|found, position| unsafe {
        c::label_book_find(
            book.as_ptr(),
            book.len(),
            name.as_ptr(),
            name.len(),
            found,
            position,
            &mut score,
        )
    });
    told[2] = score as u64;
    (number, told)
}

pub fn name_at(book: &[u8], position: usize, dst: &mut [u8]) -> Told {
    two(|a, b| unsafe {
        c::label_book_name_at(
            book.as_ptr(),
            book.len(),
            position,
            dst.as_mut_ptr(),
            dst.len(),
            a,
            b,
        )
    })
}

pub fn name_of(book: &[u8], name: &[u8], dst: &mut [u8]) -> Told {
    two(|a, b| unsafe {
        c::label_book_name_of(
            book.as_ptr(),
            book.len(),
            name.as_ptr(),
            name.len(),
            dst.as_mut_ptr(),
            dst.len(),
            a,
            b,
        )
    })
}

pub fn prefix_range(book: &[u8], prefix: &[u8]) -> Told {
    two(|a, b| unsafe {
        c::label_book_prefix_range(book.as_ptr(), book.len(), prefix.as_ptr(), prefix.len(), a, b)
    })
}

pub fn head(book: &[u8], bucket: usize) -> Told {
    two(|a, b| unsafe { c::label_book_head(book.as_ptr(), book.len(), bucket, a, b) })
}

pub fn build(sheet: &[u8], dst: &mut [u8]) -> Told {
    two(|a, b| unsafe {
        c::label_book_build(sheet.as_ptr(), sheet.len(), dst.as_mut_ptr(), dst.len(), a, b)
    })
}

pub fn list(book: &[u8], dst: &mut [u8]) -> Told {
    two(|a, b| unsafe {
        c::label_book_list(book.as_ptr(), book.len(), dst.as_mut_ptr(), dst.len(), a, b)
    })
}

pub fn page(book: &[u8], dst: &mut [u8]) -> Told {
    two(|a, b| unsafe {
        c::label_book_page(book.as_ptr(), book.len(), dst.as_mut_ptr(), dst.len(), a, b)
    })
}

pub fn convert(book: &[u8], dst: &mut [u8]) -> Told {
    two(|a, b| unsafe {
        c::label_book_convert(book.as_ptr(), book.len(), dst.as_mut_ptr(), dst.len(), a, b)
    })
}

pub fn run(script: &[u8], first: &mut [u8], second: &mut [u8], out: &mut [u8]) -> Told {
    two(|calls, turned| unsafe {
        c::label_book_run(
            script.as_ptr(),
            script.len(),
            first.as_mut_ptr(),
            first.len(),
            second.as_mut_ptr(),
            second.len(),
            out.as_mut_ptr(),
            out.len(),
            calls,
            turned,
        )
    })
}

pub fn complete(
    book: &[u8],
    prefix: &[u8],
    k: usize,
    dst: &mut [u8],
    ranges: &mut [Range],
) -> Told {
    three(|a, b, l| unsafe {
        c::label_book_complete(
            book.as_ptr(),
            book.len(),
            prefix.as_ptr(),
            prefix.len(),
            k,
            dst.as_mut_ptr(),
            dst.len(),
            ranges.as_mut_ptr(),
            ranges.len(),
            a,
            b,
            l,
        )
    })
}

pub fn write_trie(book: &[u8], dst: &mut [u8]) -> Told {
    two(|a, b| unsafe {
        c::label_book_write_trie(book.as_ptr(), book.len(), dst.as_mut_ptr(), dst.len(), a, b)
    })
}

pub fn complete_trie(trie: &[u8], prefix: &[u8], k: usize, dst: &mut [u8]) -> Told {
    three(|a, b, l| unsafe {
        c::label_book_complete_trie(
            trie.as_ptr(),
            trie.len(),
            prefix.as_ptr(),
            prefix.len(),
            k,
            dst.as_mut_ptr(),
            dst.len(),
            a,
            b,
            l,
        )
    })
}

pub fn press(book: &[u8], panel: &mut Panel, key: u8) -> Told {
    let mut rows = BEFORE;
    let number = unsafe { c::label_book_press(book.as_ptr(), book.len(), panel, key, &mut rows) };
    (number, [rows as u64, 0, 0])
}
