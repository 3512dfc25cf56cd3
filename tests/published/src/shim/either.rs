//! Stands in for the crate `either`.

pub enum Either<L, R> {
    Left(L),
    Right(R),
}
