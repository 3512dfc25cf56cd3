impl<S, M, Stg> Dispatch<S, M, Stg>
where
    S: Sequent,
    M: Model,
    Stg: Strategy<S>,
{
    /// What waits, the next one first.
    pub fn waiting(&self) -> impl Iterator<Item = &(M, Stg)> {
        match self {
            Self::FIFO { scheduler } => scheduler.queue.iter(),
            Self::LIFO { scheduler, .. } => scheduler.queue.iter(),
        }
    }
}
