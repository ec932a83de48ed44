//! Samples to try a codec on, the same in every run and, for they are made of whole numbers alone, on
//! every machine. bench/ and tests/oracle use this file too.

/// Numbers in which nobody sees an order.
pub struct Random(u64);

impl Random {
    pub fn new(seed: u64) -> Random {
        Random(seed)
    }

    fn number(&mut self) -> u32 {
        self.0 = self
            .0
            .wrapping_mul(6364136223846793005)
            .wrapping_add(1442695040888963407);
        (self.0 >> 32) as u32
    }

    /// No further than `most` from zero, either way.
    fn about_zero(&mut self, most: i32) -> i32 {
        let number = (self.number() >> 16) as i32 - 32768;
        (number * most) >> 15
    }
}

impl Iterator for Random {
    type Item = u32;

    fn next(&mut self) -> Option<u32> {
        Some(self.number())
    }
}

/// At full scale, each sample with no regard to the one before.
pub fn noise(seed: u64, len: usize) -> Vec<i16> {
    let samples = Random::new(seed).map(|number| (number >> 16) as i16);
    samples.take(len).collect()
}

/// The tones of a voice at 22,050 samples a second: how high in hertz, and how loud.
const TONES: [(u32, i32); 4] = [(130, 9000), (520, 4000), (1550, 2000), (2600, 1000)];
/// Of a turn of 2^32, what one hertz adds with each sample.
const HERTZ: u32 = 194_783;

/// As speech is: tones that drift and the breath between them, in syllables with pauses, and a faint
/// noise under all of it. It starts within a syllable, so that a short stretch is no silence.
pub fn speech(seed: u64, len: usize) -> Vec<i16> {
    let mut random = Random::new(seed);
    let mut tones = TONES.map(|(hertz, loud)| Tone::new(hertz, loud, random.number()));
    let mut syllables = Tone::new(4, 32767, 1 << 29);
    let mut sample = || {
        let voice: i32 = tones.iter_mut().map(Tone::next).sum();
        let breath = random.about_zero(1000);
        let swell = syllables.next().max(0);
        (((voice + breath) * swell) >> 15) + random.about_zero(24)
    };
    // at most 17,024: no cast cuts anything off
    (0..len).map(|_| sample() as i16).collect()
}

struct Tone {
    step: u32,
    loud: i32,
    phase: u32,
    drift: u32,
}

impl Tone {
    fn new(hertz: u32, loud: i32, phase: u32) -> Tone {
        Tone {
            step: hertz * HERTZ,
            loud,
            phase,
            drift: phase,
        }
    }

    /// The next sample of a tone that goes up and down by 3 %, three times a second.
    fn next(&mut self) -> i32 {
        self.drift = self.drift.wrapping_add(3 * HERTZ);
        let bend = sine(self.drift) * (self.step >> 20) as i32;
        self.phase = self.phase.wrapping_add(self.step);
        self.phase = self.phase.wrapping_add_signed(bend);
        (sine(self.phase) * self.loud) >> 15
    }
}

/// About a sine, from -32768 to 32768: each half of a turn is a parabola.
fn sine(phase: u32) -> i32 {
    let turn = (phase as i32) >> 16;
    (turn * (32768 - turn.abs())) >> 13
}
