//! Holds Bob Jenkins's small generator and the drawing of a constraint from a seed.

struct Small {
    a: u32,
    b: u32,
    c: u32,
    d: u32,
}

impl Small {
    fn new(seed: u32) -> Self {
        Small {
            a: 0xF1EA_5EED,
            b: seed,
            c: seed,
            d: seed,
        }
    }

    /// One step, in the order of document 01; the draw is the new d.
    fn draw(&mut self) -> u32 {
        let e = self.a.wrapping_sub(self.b.rotate_left(27));
        self.a = self.b ^ self.c.rotate_left(17);
        self.b = self.c.wrapping_add(self.d);
        self.c = self.d.wrapping_add(e);
        self.d = e.wrapping_add(self.a);
        self.d
    }
}

/// The constraint on n symbols that the seed stands for; None is document 01's refusal 1.
pub fn constraint(n: u8, seed: u32) -> Option<u64> {
    if !(1..=64).contains(&n) {
        return None;
    }
    let mut small = Small::new(seed);
    for _ in 0..20 {
        small.draw();
    }
    let high = u64::from(small.draw());
    let low = u64::from(small.draw());
    let drawn = (high << 32 | low) & (u64::MAX >> (64 - n));
    // A row that names no symbol would tell nothing of the page.
    Some(if drawn == 0 {
        1 << (seed % u32::from(n))
    } else {
        drawn
    })
}
