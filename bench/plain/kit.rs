//! The kit crates, as far as they are used here.

pub mod indexmap {
    pub use crate::std_names::HashMap as IndexMap;
}

pub mod arrayvec {
    pub struct ArrayVec<T, const CAP: usize> {
        items: [T; CAP],
        len: usize,
    }

    impl<T: Copy + Default, const CAP: usize> ArrayVec<T, CAP> {
        pub fn new() -> Self {
            ArrayVec { items: [T::default(); CAP], len: 0 }
        }
        #[inline]
        pub fn len(&self) -> usize {
            self.len
        }
        #[inline]
        pub fn as_slice(&self) -> &[T] {
            &self.items[..self.len]
        }
        pub fn try_extend_from_slice(&mut self, items: &[T]) -> Result<(), ()> {
            let end = self.len + items.len();
            if end > CAP {
                return Err(());
            }
            self.items[self.len..end].copy_from_slice(items);
            self.len = end;
            Ok(())
        }
    }
}

pub mod memchr {
    use std::arch::x86_64::*;

    #[inline]
    pub fn memchr(byte: u8, text: &[u8]) -> Option<usize> {
        let mut at = 0;
        unsafe {
            let needle = _mm_set1_epi8(byte as i8);
            while at + 32 <= text.len() {
                let one = _mm_loadu_si128(text.as_ptr().add(at) as *const __m128i);
                let two = _mm_loadu_si128(text.as_ptr().add(at + 16) as *const __m128i);
                let bits = _mm_movemask_epi8(_mm_cmpeq_epi8(one, needle)) as u32
                    | (_mm_movemask_epi8(_mm_cmpeq_epi8(two, needle)) as u32) << 16;
                if bits != 0 {
                    return Some(at + bits.trailing_zeros() as usize);
                }
                at += 32;
            }
        }
        while at < text.len() {
            if text[at] == byte {
                return Some(at);
            }
            at += 1;
        }
        None
    }

    pub fn memchr2(one: u8, other: u8, text: &[u8]) -> Option<usize> {
        text.iter().position(|it| *it == one || *it == other)
    }
}

/// As Rattle's itoa does it.
pub mod itoa {
    const MAX_LEN: usize = 40;

    static PAIRS: [u8; 200] =
        *b"00010203040506070809101112131415161718192021222324252627282930313233343536373839404142434445464748495051525354555657585960616263646566676869707172737475767778798081828384858687888990919293949596979899";

    #[inline(always)]
    fn write_pair(pair: u64, buf: &mut [u8], at: usize) {
        let from = pair as usize * 2;
        let (tens, ones) = (PAIRS[from], PAIRS[from + 1]);
        buf[at] = tens;
        buf[at + 1] = ones;
    }

    #[inline]
    pub fn write_digits(n: u64, buf: &mut [u8], end: usize) -> usize {
        let mut left = n;
        let mut at = end;
        while left >= 10_000 {
            let four = left % 10_000;
            left /= 10_000;
            write_pair(four % 100, buf, at - 2);
            write_pair(four / 100, buf, at - 4);
            at -= 4;
        }
        write_short(left, buf, at)
    }

    #[inline(always)]
    fn write_short(n: u64, buf: &mut [u8], end: usize) -> usize {
        if n < 100 {
            return write_first(n, buf, end);
        }
        write_pair(n % 100, buf, end - 2);
        write_first(n / 100, buf, end - 2)
    }

    #[inline(always)]
    fn write_first(n: u64, buf: &mut [u8], end: usize) -> usize {
        if n < 10 {
            buf[end - 1] = b'0' + n as u8;
            return end - 1;
        }
        write_pair(n, buf, end - 2);
        end - 2
    }

    pub trait Number: Copy {
        fn write(self, buf: &mut [u8; MAX_LEN]) -> usize;
    }

    impl Number for u64 {
        #[inline]
        fn write(self, buf: &mut [u8; MAX_LEN]) -> usize {
            write_digits(self, buf, MAX_LEN)
        }
    }

    impl Number for usize {
        #[inline]
        fn write(self, buf: &mut [u8; MAX_LEN]) -> usize {
            write_digits(self as u64, buf, MAX_LEN)
        }
    }

    impl Number for u128 {
        fn write(self, buf: &mut [u8; MAX_LEN]) -> usize {
            let mut left = self;
            let mut at = MAX_LEN;
            while left > u64::MAX as u128 {
                at -= 1;
                buf[at] = b'0' + (left % 10) as u8;
                left /= 10;
            }
            write_digits(left as u64, buf, at)
        }
    }

    pub struct Buffer {
        bytes: [u8; MAX_LEN],
    }

    impl Buffer {
        #[inline]
        pub fn new() -> Buffer {
            Buffer { bytes: [0; MAX_LEN] }
        }
        #[inline]
        pub fn format<N: Number>(&mut self, n: N) -> &str {
            let start = n.write(&mut self.bytes);
            unsafe { std::str::from_utf8_unchecked(&self.bytes[start..]) }
        }
    }
}
