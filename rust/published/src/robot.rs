//! Stand-in for copp's robot; its torque coefficients are lent.

pub mod robot_core {
    use crate::DMatrix;
    use crate::copp::constraints::Constraints;
    use crate::diag::CoppError;

    pub trait RobotBasic {}

    pub trait RobotTorque: RobotBasic {}

    pub struct Lent;

    impl RobotBasic for Lent {}

    impl RobotTorque for Lent {}

    pub struct Robot<'a, M> {
        pub constraints: Constraints<'a>,
        _model: M,
    }

    impl<'a> Robot<'a, Lent> {
        pub fn new(constraints: Constraints<'a>) -> Self {
            Self {
                constraints,
                _model: Lent,
            }
        }
    }

    type Coefficients = (DMatrix<f64>, DMatrix<f64>, DMatrix<f64>);

    impl<M> Robot<'_, M> {
        pub fn dim(&self) -> usize {
            self.constraints.lent.d
        }

        pub fn torque_coeff(&self, _: usize, _: usize) -> Result<Coefficients, CoppError> {
            let lent = self.constraints.lent;
            let matrix = |table: &[f64]| DMatrix::lent(lent.d, table);
            Ok((
                matrix(lent.torque_a),
                matrix(lent.torque_b),
                matrix(lent.torque_g),
            ))
        }

        /// Named by the objective values, which nothing here asks for.
        pub fn get_torque_with_ab(
            &self,
            _: &[f64],
            _: &[f64],
            _: usize,
        ) -> Result<DMatrix<f64>, CoppError> {
            let (function, text) = ("get_torque_with_ab", "not lent");
            Err(CoppError::InvalidInput(function.into(), text.into()))
        }
    }
}
