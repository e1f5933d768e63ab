// Mausvioline for Rust: the calls of include/mausvioline.h over slices. What C must keep (valid lists, written ones that
// overlap no other) Rust's borrows keep.

/// What a call answers.
#[derive(Clone, Copy, Debug, PartialEq, Eq)]
pub enum Answer {
    Done,
    /// A factor is shown in the factor buffer, at this level.
    Factor(usize),
    /// Refused by this number, 1 to 11.
    Refused(usize),
}

/// Where a tower stands: p, the number of levels, their degrees, and the words of its polynomials.
#[derive(Clone, Copy)]
pub struct Tower<'a> {
    pub p: i64,
    pub levels: i64,
    pub degrees: [i64; 4],
    pub words: &'a [i64],
}

mod c {
    extern "C" {
        pub fn mausvioline_check_tower(p: i64, n: i64, d: *const i64, t: *const i64, tn: usize) -> usize;
        pub fn mausvioline_check_slot(
            p: i64, n: i64, d: *const i64, t: *const i64, tn: usize, a: *const i64, an: usize,
        ) -> usize;
        pub fn mausvioline_work_sizes(n: i64, d: *const i64, da: i64, db: i64, sizes: *mut usize) -> usize;
        pub fn mausvioline_fraction(p: i64, n: i64, e: i64, residue: *mut u64) -> usize;
        pub fn mausvioline_leading_view(
            p: i64, n: i64, d: *const i64, t: *const i64, tn: usize, a: *const i64, an: usize, b: *const i64, bn: usize,
            start: *mut usize, count: *mut usize,
        ) -> usize;
        pub fn mausvioline_sum(
            p: i64, n: i64, d: *const i64, t: *const i64, tn: usize, a: *mut i64, an: usize, b: *const i64, bn: usize,
        ) -> usize;
        pub fn mausvioline_difference(
            p: i64, n: i64, d: *const i64, t: *const i64, tn: usize, a: *mut i64, an: usize, b: *const i64, bn: usize,
        ) -> usize;
        pub fn mausvioline_product(
            p: i64, n: i64, d: *const i64, t: *const i64, tn: usize, a: *const i64, an: usize, b: *const i64, bn: usize,
            c: *mut i64, cn: usize, work: *mut i64, wn: usize,
        ) -> usize;
        pub fn mausvioline_division(
            p: i64, n: i64, d: *const i64, t: *const i64, tn: usize, a: *mut i64, an: usize, b: *const i64, bn: usize,
            q: *mut i64, qn: usize, work: *mut i64, wn: usize,
        ) -> usize;
        pub fn mausvioline_inverse(
            p: i64, n: i64, d: *const i64, t: *const i64, tn: usize, c: *const i64, cn: usize, r: *mut i64, rn: usize,
            factor: *mut i64, fn_: usize, work: *mut i64, wn: usize,
        ) -> usize;
        pub fn mausvioline_gcd(
            p: i64, n: i64, d: *const i64, t: *const i64, tn: usize, a: *const i64, an: usize, b: *const i64, bn: usize,
            g: *mut i64, gn: usize, factor: *mut i64, fn_: usize, work: *mut i64, wn: usize,
        ) -> usize;
    }
}

fn answer(code: usize) -> Answer {
    match code {
        0 => Answer::Done,
        1..=99 => Answer::Refused(code),
        _ => Answer::Factor(code - 100),
    }
}

/// The residue of n/e modulo p, or the number of the refusal.
pub fn fraction(p: i64, n: i64, e: i64) -> Result<u64, usize> {
    let mut residue = 0;
    match unsafe { c::mausvioline_fraction(p, n, e, &mut residue) } {
        0 => Ok(residue),
        number => Err(number),
    }
}

/// The work words of product and division, of inverse, and of GCD, for polynomials of two degrees.
pub fn work_sizes(levels: i64, degrees: [i64; 4], a: i64, b: i64) -> Result<[usize; 3], usize> {
    let mut sizes = [0; 3];
    match unsafe { c::mausvioline_work_sizes(levels, degrees.as_ptr(), a, b, sizes.as_mut_ptr()) } {
        0 => Ok(sizes),
        number => Err(number),
    }
}

impl Tower<'_> {
    pub fn check(&self) -> Answer {
        let (p, n, d, t) = (self.p, self.levels, self.degrees.as_ptr(), self.words);
        answer(unsafe { c::mausvioline_check_tower(p, n, d, t.as_ptr(), t.len()) })
    }

    pub fn check_slot(&self, a: &[i64]) -> Answer {
        let (p, n, d, t) = (self.p, self.levels, self.degrees.as_ptr(), self.words);
        answer(unsafe { c::mausvioline_check_slot(p, n, d, t.as_ptr(), t.len(), a.as_ptr(), a.len()) })
    }

    /// The words of the leading coefficient of a or b, a part of that slot itself.
    pub fn leading_view<'b>(&self, a: &'b [i64], b: &'b [i64]) -> &'b [i64] {
        let (p, n, d, t) = (self.p, self.levels, self.degrees.as_ptr(), self.words);
        let (mut start, mut count) = (0, 0);
        let slot = unsafe {
            c::mausvioline_leading_view(
                p, n, d, t.as_ptr(), t.len(), a.as_ptr(), a.len(), b.as_ptr(), b.len(), &mut start, &mut count,
            )
        };
        match slot {
            0 => &[],
            1 => &a[start..start + count],
            _ => &b[start..start + count],
        }
    }

    /// a := a + b
    pub fn sum(&self, a: &mut [i64], b: &[i64]) -> Answer {
        let (p, n, d, t) = (self.p, self.levels, self.degrees.as_ptr(), self.words);
        answer(unsafe { c::mausvioline_sum(p, n, d, t.as_ptr(), t.len(), a.as_mut_ptr(), a.len(), b.as_ptr(), b.len()) })
    }

    /// a := a - b
    pub fn difference(&self, a: &mut [i64], b: &[i64]) -> Answer {
        let (p, n, d, t) = (self.p, self.levels, self.degrees.as_ptr(), self.words);
        answer(unsafe {
            c::mausvioline_difference(p, n, d, t.as_ptr(), t.len(), a.as_mut_ptr(), a.len(), b.as_ptr(), b.len())
        })
    }

    /// c := a · b
    pub fn product(&self, a: &[i64], b: &[i64], c: &mut [i64], work: &mut [i64]) -> Answer {
        let (p, n, d, t) = (self.p, self.levels, self.degrees.as_ptr(), self.words);
        answer(unsafe {
            c::mausvioline_product(
                p, n, d, t.as_ptr(), t.len(), a.as_ptr(), a.len(), b.as_ptr(), b.len(), c.as_mut_ptr(), c.len(),
                work.as_mut_ptr(), work.len(),
            )
        })
    }

    /// q := the quotient of a by the monic b, a := the remainder
    pub fn division(&self, a: &mut [i64], b: &[i64], q: &mut [i64], work: &mut [i64]) -> Answer {
        let (p, n, d, t) = (self.p, self.levels, self.degrees.as_ptr(), self.words);
        answer(unsafe {
            c::mausvioline_division(
                p, n, d, t.as_ptr(), t.len(), a.as_mut_ptr(), a.len(), b.as_ptr(), b.len(), q.as_mut_ptr(), q.len(),
                work.as_mut_ptr(), work.len(),
            )
        })
    }

    /// r := the inverse of the element c, or a factor into the factor buffer
    pub fn inverse(&self, c: &[i64], r: &mut [i64], factor: &mut [i64], work: &mut [i64]) -> Answer {
        let (p, n, d, t) = (self.p, self.levels, self.degrees.as_ptr(), self.words);
        answer(unsafe {
            c::mausvioline_inverse(
                p, n, d, t.as_ptr(), t.len(), c.as_ptr(), c.len(), r.as_mut_ptr(), r.len(), factor.as_mut_ptr(),
                factor.len(), work.as_mut_ptr(), work.len(),
            )
        })
    }

    /// g := the monic GCD of a and b, or a factor into the factor buffer
    pub fn gcd(&self, a: &[i64], b: &[i64], g: &mut [i64], factor: &mut [i64], work: &mut [i64]) -> Answer {
        let (p, n, d, t) = (self.p, self.levels, self.degrees.as_ptr(), self.words);
        answer(unsafe {
            c::mausvioline_gcd(
                p, n, d, t.as_ptr(), t.len(), a.as_ptr(), a.len(), b.as_ptr(), b.len(), g.as_mut_ptr(), g.len(),
                factor.as_mut_ptr(), factor.len(), work.as_mut_ptr(), work.len(),
            )
        })
    }
}
