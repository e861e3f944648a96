//! Whether the loop looks for requests for a while before it sleeps. To wake it costs the client who does so more than its request. But who looks
//! takes the processor from others, so it is done only while it pays.
use std::time::Duration;

/// For so long it is looked.
pub const LOOK: Duration = Duration::from_micros(20);

/// A look that takes so long was interrupted: another process wants the processor.
const INTERRUPTED: Duration = Duration::from_micros(200);

/// A look in vain costs as much as so many that find something save.
const VAIN: u32 = 4;

/// No more is saved up, so so many looks in vain in succession are enough to stop.
const MOST_CREDIT: u32 = 8 * VAIN;

/// So many short sleeps at least, and at most, are between looks that do not pay.
const SHORT_REST: u32 = 64;
const LONG_REST: u32 = 1 << 12;

pub struct Haste {
    credit: u32,
    /// So many short sleeps are left until it is tried again.
    rest: u32,
    next_rest: u32,
}

impl Default for Haste {
    fn default() -> Haste {
        Haste { credit: 0, rest: SHORT_REST, next_rest: SHORT_REST }
    }
}

impl Haste {
    /// Whether to look now.
    pub fn is_worth(&self) -> bool {
        self.rest == 0
    }

    /// The loop has looked for so long, and has found something or not.
    pub fn looked(&mut self, took: Duration, has_found: bool) {
        if took >= INTERRUPTED {
            (self.credit, self.rest) = (0, LONG_REST);
        } else if has_found {
            self.credit = (self.credit + 1).min(MOST_CREDIT);
            if self.credit == MOST_CREDIT {
                self.next_rest = SHORT_REST;
            }
        } else if self.credit >= VAIN {
            self.credit -= VAIN;
        } else {
            (self.credit, self.rest) = (0, self.next_rest);
            self.next_rest = (self.next_rest * 2).min(LONG_REST);
        }
    }

    /// The loop has slept for so long without a look. It is not tried for those who come rarely.
    pub fn slept(&mut self, took: Duration) {
        if took < LOOK {
            self.rest = self.rest.saturating_sub(1);
        }
    }
}

#[cfg(test)]
mod tests {
    use super::*;

    const SHORT: Duration = Duration::from_micros(5);
    const LONG: Duration = Duration::from_millis(5);

    /// How many of so many short waits have a look, each of which finds something or not.
    fn looks(haste: &mut Haste, waits: u32, has_found: bool) -> u32 {
        let mut count = 0;
        for _ in 0..waits {
            if haste.is_worth() {
                count += 1;
                haste.looked(if has_found { SHORT } else { LOOK }, has_found);
            } else {
                haste.slept(SHORT);
            }
        }
        count
    }

    #[test]
    fn who_comes_rarely_is_not_looked_for() {
        let mut haste = Haste::default();
        (0..LONG_REST).for_each(|_| haste.slept(LONG));
        assert!(!haste.is_worth());
    }

    #[test]
    fn it_goes_on_while_it_pays() {
        let mut haste = Haste::default();
        assert_eq!(looks(&mut haste, SHORT_REST + 1000, true), 1000);
        for _ in 0..100 {
            assert_eq!(looks(&mut haste, VAIN, true), VAIN);
            assert_eq!(looks(&mut haste, 1, false), 1);
        }
        assert!(haste.is_worth());
    }

    #[test]
    fn in_vain_it_rests_ever_longer() {
        let mut haste = Haste::default();
        assert!(looks(&mut haste, 1000, false) <= 5);
        assert!(looks(&mut haste, 1 << 20, false) <= 300);
        looks(&mut haste, LONG_REST + 1000, true);
        assert_eq!(looks(&mut haste, 9, false), 9);
        assert_eq!(looks(&mut haste, SHORT_REST, true), 0);
        assert_eq!(looks(&mut haste, 1, true), 1);
    }

    #[test]
    fn an_interrupted_look_is_the_last_for_long() {
        let mut haste = Haste::default();
        looks(&mut haste, 1000, true);
        haste.looked(INTERRUPTED, true);
        assert_eq!(looks(&mut haste, LONG_REST, true), 0);
        assert_eq!(looks(&mut haste, 1, true), 1);
    }
}
