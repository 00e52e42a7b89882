//! Keys and values by chance, the same on each side and in each run.

use std::str::FromStr;

/// Which keys are measured.
#[derive(Clone, Copy)]
pub enum Kind {
    /// Eight random bytes.
    Random,
    /// Forty bytes, of which the first 33 are the same in all.
    Urls,
}

impl FromStr for Kind {
    type Err = String;

    fn from_str(word: &str) -> Result<Kind, String> {
        match word {
            "random" => Ok(Kind::Random),
            "urls" => Ok(Kind::Urls),
            _ => Err(format!(
                "there are no keys of the kind {word}: random, urls"
            )),
        }
    }
}

/// Numbers by chance (xorshift64*, Vigna 2016).
pub struct Chance(u64);

impl Chance {
    pub fn new(seed: u64) -> Chance {
        Chance(seed | 1)
    }

    pub fn number(&mut self) -> u64 {
        self.0 ^= self.0 >> 12;
        self.0 ^= self.0 << 25;
        self.0 ^= self.0 >> 27;
        self.0.wrapping_mul(0x2545_F491_4F6C_DD1D)
    }

    /// The items in another order (Fisher and Yates).
    pub fn shuffled<T: Clone>(&mut self, items: &[T]) -> Vec<T> {
        let mut shuffled = items.to_vec();
        for at in (1..shuffled.len()).rev() {
            shuffled.swap(at, (self.number() % (at as u64 + 1)) as usize);
        }
        shuffled
    }
}

// The number's digits are those of another number below 2^28, each of one number alone, so that the order is by chance.
fn url(number: u64) -> Vec<u8> {
    let mixed = number.wrapping_mul(0x9E37_79B1) % (1 << 28);
    format!("https://www.example.org/articles/{mixed:07x}").into_bytes()
}

/// So many keys, and as many others. Of 2^27 at most.
pub fn present_and_absent(kind: Kind, count: usize) -> (Vec<Vec<u8>>, Vec<Vec<u8>>) {
    let mut chance = Chance::new(88_172_645_463_325_252);
    let mut key = |number: u64| match kind {
        Kind::Random => chance.number().to_be_bytes().to_vec(),
        Kind::Urls => url(number),
    };
    let mut present: Vec<Vec<u8>> = (0..2 * count as u64).map(&mut key).collect();
    let absent = present.split_off(count);
    (present, absent)
}
