//! Stand-in for truck_geotrait: the traits of curves and surfaces that the
//! given files of truck-topology name, with the functions that they call.

use std::fmt::{Debug, Display, Formatter};

/// The curve's search for a parameter.
pub struct D1;

pub trait ParametricCurve: Clone {
    type Point;
    fn subs(&self, t: f64) -> Self::Point;
}

pub trait BoundedCurve: ParametricCurve {
    fn range_tuple(&self) -> (f64, f64);
    fn front(&self) -> Self::Point { self.subs(self.range_tuple().0) }
    fn back(&self) -> Self::Point { self.subs(self.range_tuple().1) }
}

/// `cut` leaves the part before `t` and hands back the part after it.
pub trait Cut: BoundedCurve {
    fn cut(&mut self, t: f64) -> Self;
}

pub trait SearchParameter<D> {
    type Point;
    fn search_parameter(&self, point: Self::Point, hint: Option<f64>, trials: usize)
        -> Option<f64>;
}

pub trait Invertible: Clone {
    fn inverse(&self) -> Self;
}

/// The parameter t becomes `scalar` t + `r#move`.
pub trait ParameterTransform: BoundedCurve {
    fn parameter_transform(&mut self, scalar: f64, r#move: f64) -> &mut Self;
}

pub trait Concat<Rhs>: BoundedCurve {
    type Output;
    fn try_concat(&self, rhs: &Rhs) -> Result<Self::Output, ConcatError<Self::Point>>;
}

#[derive(Clone, Debug)]
pub struct ConcatError<P>(pub P);

impl<P: Debug> Display for ConcatError<P> {
    fn fmt(&self, f: &mut Formatter<'_>) -> std::fmt::Result {
        write!(f, "the curves do not join at {:?}", self.0)
    }
}

pub trait IncludeCurve<C> {
    fn include(&self, curve: &C) -> bool;
}
