//! Items without values: what is read is sent on at once, and nothing is kept.

use crate::values::*;
use crate::variables::*;

/// A source whose variables go to a sink as they are read. What is made of them is empty lists at most, and not used.
pub struct Sent<'s, R, S> {
    pub source: R,
    pub sink: &'s mut S,
}

pub struct SentRun<'r, R, S> {
    run: R,
    sink: &'r mut S,
}

impl<R: Source, S: Sink> Source for Sent<'_, R, S> {
    type Run<'r>
        = SentRun<'r, R::Run<'r>, S>
    where
        Self: 'r;

    #[inline(always)]
    fn run(&mut self) -> Option<Self::Run<'_>> {
        Some(SentRun { run: self.source.run()?, sink: self.sink })
    }

    #[inline(always)]
    fn radio(&mut self) -> Option<u64> {
        let number = self.source.radio()?;
        self.sink.put(NID_RADIO, number);
        Some(number)
    }

    #[inline(always)]
    fn text(&mut self, len: usize) -> Option<Vec<u8>> {
        for _ in 0..len {
            self.take::<_, u8>(X_TEXT)?;
        }
        Some(Vec::new())
    }

    /// A packet that is kept is sent as a whole instead.
    #[inline(always)]
    fn kept(&mut self, _: usize) -> Option<Kept> {
        None
    }

    #[inline(always)]
    fn list<P: Part>(&mut self, count: usize) -> Option<Vec<P>> {
        for _ in 0..count {
            P::read(self)?;
        }
        Some(Vec::new())
    }

    #[inline(always)]
    fn chain<P: Part>(&mut self) -> Option<Vec<P>> {
        P::read(self)?;
        let further: u8 = self.take(N_ITER)?;
        self.list(further.into())
    }
}

impl<R: Run, S: Sink> Run for SentRun<'_, R, S> {
    #[inline(always)]
    fn take<V: Variable, N: Number>(&mut self, variable: V) -> Option<N> {
        let number: N = self.run.take(variable)?;
        self.sink.put(variable, number);
        Some(number)
    }

    #[inline(always)]
    fn pass(self) {
        self.run.pass();
    }
}

impl<R: Source, S: Sink> Sent<'_, R, S> {
    /// Sends what a packet of this number says, which has a row.
    #[inline(always)]
    pub fn body(&mut self, way: Way, nid: u8) -> Option<()> {
        // not dropped, since there is nothing in its lists
        Body::read_inline(self, way, nid, 0).map(std::mem::forget)
    }
}

/// Where nothing is kept of what is sent.
pub struct Nothing;

impl Sink for Nothing {
    #[inline(always)]
    fn put<V: Variable>(&mut self, _: V, _: impl Number) {}
}

impl Writer for Nothing {}
