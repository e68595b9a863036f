use std::fmt;

/// A value as the engine has it: a whole number, and the scale that it is divided by.
///
/// ```
/// use yindolve::Session;
/// let mut session = Session::load("(total 4)\n(discount 1 1)\n(reward 7)\n(action wait)\n(variant only 4)\n(start)\n")?;
/// session.backup()?;
/// let value = session.value(&session.state(1).finish()?)?;
/// assert_eq!((value.value, value.steps, value.scale), (56, 1, 4));
/// assert_eq!(value.fraction().to_string(), "14");
/// assert_eq!(value.to_f64(), 14.0);
/// # Ok::<(), Box<dyn std::error::Error>>(())
/// ```
#[non_exhaustive]
#[derive(Clone, Copy, Debug, PartialEq, Eq, Hash)]
pub struct Value {
    /// V, the value times the scale, at most 10^18.
    pub value: u64,
    /// k, how many steps are looked ahead.
    pub steps: u64,
    /// S^k, the scale, 1 to 10^18.
    pub scale: u64,
}

impl Value {
    pub(crate) fn new(value: u64, steps: u64, scale: u64) -> Value {
        Value { value, steps, scale }
    }

    /// The value in the units of the reward, exactly.
    pub fn fraction(self) -> Fraction {
        Fraction::new(self.value, self.scale)
    }

    /// The value in the units of the reward, rounded: the relative error is below 2^-51.
    pub fn to_f64(self) -> f64 {
        self.fraction().to_f64()
    }
}

/// A fraction in lowest terms, shown as `15/4`, or `14` for `14/1`; fractions compare by their value.
#[derive(Clone, Copy, Debug, PartialEq, Eq, Hash)]
pub struct Fraction {
    numerator: u64,
    denominator: u64,
}

impl Fraction {
    /// The fraction, in lowest terms.
    ///
    /// # Panics
    /// If the denominator is 0.
    pub fn new(numerator: u64, denominator: u64) -> Fraction {
        assert!(denominator > 0, "a fraction's denominator is above 0");
        let (mut a, mut b) = (numerator, denominator);
        while b > 0 {
            (a, b) = (b, a % b);
        }
        Fraction { numerator: numerator / a, denominator: denominator / a }
    }

    /// The numerator in lowest terms.
    pub const fn numerator(self) -> u64 {
        self.numerator
    }

    /// The denominator in lowest terms.
    pub const fn denominator(self) -> u64 {
        self.denominator
    }

    /// The nearest number of the machine, or one beside it: the relative error is below 2^-51.
    pub fn to_f64(self) -> f64 {
        self.numerator as f64 / self.denominator as f64
    }

    /// The decimal number with so many places, halves rounded up.
    ///
    /// ```
    /// use yindolve::Fraction;
    /// assert_eq!(Fraction::new(972, 256).decimal(2), "3.80");
    /// assert_eq!(Fraction::new(7, 8).decimal(0), "1");
    /// ```
    pub fn decimal(self, places: usize) -> String {
        let divisor = u128::from(self.denominator);
        let mut digits = vec![u128::from(self.numerator) / divisor];
        let mut rest = u128::from(self.numerator) % divisor;
        for _ in 0..places {
            digits.push(rest * 10 / divisor);
            rest = rest * 10 % divisor;
        }
        if rest * 2 >= divisor {
            // carry from the last place on
            let nines = digits[1..].iter().rev().take_while(|digit| **digit == 9).count();
            let at = places - nines;
            digits[at] += 1;
            digits[at + 1..].fill(0);
        }
        let (whole, places) = digits.split_at(1);
        let point = if places.is_empty() { "" } else { "." };
        format!("{}{point}{}", whole[0], places.iter().map(u128::to_string).collect::<String>())
    }
}

impl Ord for Fraction {
    fn cmp(&self, other: &Fraction) -> std::cmp::Ordering {
        let product = |a: u64, b: u64| u128::from(a) * u128::from(b);
        product(self.numerator, other.denominator).cmp(&product(other.numerator, self.denominator))
    }
}

impl PartialOrd for Fraction {
    fn partial_cmp(&self, other: &Fraction) -> Option<std::cmp::Ordering> {
        Some(self.cmp(other))
    }
}

impl fmt::Display for Fraction {
    fn fmt(&self, f: &mut fmt::Formatter) -> fmt::Result {
        match self.denominator {
            1 => self.numerator.fmt(f),
            denominator => write!(f, "{}/{denominator}", self.numerator),
        }
    }
}

impl fmt::Display for Value {
    fn fmt(&self, f: &mut fmt::Formatter) -> fmt::Result {
        self.fraction().fmt(f)
    }
}

#[cfg(test)]
mod tests {
    use super::*;

    #[test]
    fn fractions() {
        assert_eq!(Fraction::new(0, 8), Fraction::new(0, 1));
        assert_eq!(Fraction::new(120, 8).to_string(), "15");
        assert_eq!(Fraction::new(30, 8).to_string(), "15/4");
        assert_eq!((Fraction::new(30, 8).numerator(), Fraction::new(30, 8).denominator()), (15, 4));
        assert_eq!(Fraction::new(30, 8).to_f64(), 3.75);
        assert!(Fraction::new(1, 3) < Fraction::new(30, 8) && Fraction::new(2, 4) <= Fraction::new(1, 2));
    }

    #[test]
    fn decimals() {
        assert_eq!(Fraction::new(30, 8).decimal(3), "3.750");
        assert_eq!(Fraction::new(30, 8).decimal(1), "3.8");
        assert_eq!(Fraction::new(1, 3).decimal(5), "0.33333");
        assert_eq!(Fraction::new(1_999, 1_000).decimal(2), "2.00");
        assert_eq!(Fraction::new(9_996, 10_000).decimal(3), "1.000");
        assert_eq!(Fraction::new(1, 2).decimal(0), "1");
        assert_eq!(Fraction::new(1_000_000_000_000_000_000, 999_999_999_999_999_999).decimal(20), "1.00000000000000000100");
    }
}
