//! Natural numbers of any size, for counts that double with each node.

/// A number: its digits to the base 2^32, the lowest first, the highest not zero.
#[derive(Debug, Clone, Default, PartialEq, Eq)]
pub(crate) struct Natural {
    digits: Vec<u32>,
}

impl Natural {
    pub fn one() -> Natural {
        Natural { digits: vec![1] }
    }

    pub fn add(&mut self, other: &Natural) {
        if self.digits.len() < other.digits.len() {
            self.digits.resize(other.digits.len(), 0);
        }
        let mut carry = 0;
        for (at, digit) in self.digits.iter_mut().enumerate() {
            let added = other.digits.get(at).copied().unwrap_or(0);
            let sum = u64::from(*digit) + u64::from(added) + carry;
            *digit = sum as u32;
            carry = sum >> 32;
        }
        if carry > 0 {
            self.digits.push(carry as u32);
        }
    }

    pub fn sum(numbers: &[&Natural]) -> Natural {
        let mut sum = Natural::default();
        for number in numbers {
            sum.add(number);
        }
        sum
    }

    /// The number, if it is at most this one.
    pub fn at_most(&self, most: u32) -> Option<u32> {
        match self.digits[..] {
            [] => Some(0),
            [digit] if digit <= most => Some(digit),
            _ => None,
        }
    }
}

#[cfg(test)]
mod tests {
    use super::*;

    fn sum(a: &[u32], b: &[u32]) -> Vec<u32> {
        let mut sum = Natural { digits: a.to_vec() };
        sum.add(&Natural { digits: b.to_vec() });
        sum.digits
    }

    #[test]
    fn sums_with_and_without_a_carry() {
        assert_eq!(sum(&[], &[]), []);
        assert_eq!(sum(&[], &[3]), [3]);
        assert_eq!(sum(&[3], &[]), [3]);
        assert_eq!(sum(&[1, 2], &[3, 4]), [4, 6]);
        assert_eq!(sum(&[7], &[0, 0, 1]), [7, 0, 1]);
        assert_eq!(sum(&[u32::MAX, u32::MAX], &[1]), [0, 0, 1]);
        assert_eq!(sum(&[1], &[u32::MAX, u32::MAX]), [0, 0, 1]);
        assert_eq!(sum(&[u32::MAX, 5], &[u32::MAX, 6]), [u32::MAX - 1, 12]);
        let four = Natural { digits: vec![4] };
        assert_eq!(Natural::sum(&[&four, &Natural::one(), &four]).digits, [9]);
        assert_eq!(Natural::sum(&[]).digits, []);
    }

    #[test]
    fn doubled_4000_times() {
        let mut power = Natural::one();
        for _ in 0..4_000 {
            power.add(&power.clone());
        }
        assert_eq!(power.digits, [vec![0; 125], vec![1]].concat());
        assert_eq!(power.at_most(u32::MAX), None);
    }

    #[test]
    fn numbers_up_to_a_limit() {
        assert_eq!(Natural::default().at_most(0), Some(0));
        assert_eq!(Natural::one().at_most(0), None);
        assert_eq!(Natural { digits: vec![10] }.at_most(10), Some(10));
        assert_eq!(Natural { digits: vec![11] }.at_most(10), None);
        assert_eq!(Natural { digits: vec![0, 1] }.at_most(10), None);
    }
}
