//! Least squares of a few unknowns: normal equations, solved by Cholesky's method.

/// A symmetric matrix of a few rows.
pub type Matrix = Vec<Vec<f64>>;

/// The sums of a least squares problem: products of the columns with each other, and with what is
/// left.
#[derive(Debug, Clone)]
pub struct Sums {
    pub products: Matrix,
    pub with_rest: Vec<f64>,
}

impl Sums {
    /// No rows yet, for a number of unknowns.
    pub fn new(unknowns: usize) -> Sums {
        Sums { products: vec![vec![0.0; unknowns]; unknowns], with_rest: vec![0.0; unknowns] }
    }

    /// Adds a row: how much each unknown moves a value, and what is left of that value.
    pub fn add(&mut self, row: &[f64], rest: f64) {
        for (i, &one) in row.iter().enumerate() {
            for (j, &other) in row[..=i].iter().enumerate() {
                self.products[i][j] += one * other;
            }
            self.with_rest[i] += one * rest;
        }
    }

    /// The unknowns that leave least, with a damping of the diagonal as Marquardt has it; `None`
    /// where they cannot be told apart.
    pub fn solved(&self, damping: f64) -> Option<Vec<f64>> {
        let root = self.root(damping)?;
        Some(self.back(&root, &self.with_rest))
    }

    /// The inverse of the products' matrix, whose diagonal has the variances; `None` where there is
    /// none.
    pub fn inverse(&self) -> Option<Matrix> {
        let (root, count) = (self.root(0.0)?, self.with_rest.len());
        let unit = |column: usize| (0..count).map(|row| f64::from(u8::from(row == column))).collect::<Vec<_>>();
        Some((0..count).map(|column| self.back(&root, &unit(column))).collect())
    }

    /// The diagonal's square roots, by which the matrix is scaled.
    fn scale(&self, index: usize) -> f64 {
        self.products[index][index].sqrt().max(f64::MIN_POSITIVE)
    }

    /// Cholesky's root of the scaled matrix.
    fn root(&self, damping: f64) -> Option<Matrix> {
        let count = self.with_rest.len();
        let mut root = vec![vec![0.0; count]; count];
        for i in 0..count {
            for j in 0..=i {
                let mut sum = self.products[i][j] / (self.scale(i) * self.scale(j));
                if i == j {
                    sum += damping;
                }
                sum -= (0..j).map(|k| root[i][k] * root[j][k]).sum::<f64>();
                root[i][j] = match i == j {
                    true if sum > 1e-13 => sum.sqrt(),
                    true => return None,
                    false => sum / root[j][j],
                };
            }
        }
        Some(root)
    }

    /// Solves the scaled equations by their root.
    fn back(&self, root: &Matrix, right: &[f64]) -> Vec<f64> {
        let count = right.len();
        let mut solved: Vec<f64> = (0..count).map(|index| right[index] / self.scale(index)).collect();
        for i in 0..count {
            solved[i] = (solved[i] - (0..i).map(|k| root[i][k] * solved[k]).sum::<f64>()) / root[i][i];
        }
        for i in (0..count).rev() {
            solved[i] = (solved[i] - (i + 1..count).map(|k| root[k][i] * solved[k]).sum::<f64>()) / root[i][i];
        }
        (0..count).map(|index| solved[index] / self.scale(index)).collect()
    }
}

#[cfg(test)]
mod tests {
    use super::*;

    /// The line 1 + 2x through three points, and its inverse matrix by hand: sums
    /// 3, 3, 5 give a determinant of 6.
    #[test]
    fn a_line_is_found() {
        let mut sums = Sums::new(2);
        for x in [0.0, 1.0, 2.0] {
            sums.add(&[1.0, x], 1.0 + 2.0 * x);
        }
        let line = sums.solved(0.0).expect("a line");
        assert!((line[0] - 1.0).abs() < 1e-12 && (line[1] - 2.0).abs() < 1e-12);
        let inverse = sums.inverse().expect("an inverse");
        assert!((inverse[0][0] - 5.0 / 6.0).abs() < 1e-12 && (inverse[1][1] - 0.5).abs() < 1e-12);
        let mut same = Sums::new(2);
        same.add(&[1.0, 1.0], 1.0);
        assert!(same.solved(0.0).is_none());
    }
}
