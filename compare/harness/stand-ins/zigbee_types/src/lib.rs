//! Stand-in for `zigbee_types`: addresses, vectors, and the slot for one value.
use core::ops::{Deref, DerefMut};

use byte::{BytesExt, TryRead, TryWrite};

#[derive(Debug, Clone, Copy, PartialEq, Eq, Default, Hash, PartialOrd, Ord)]
pub struct IeeeAddress(pub u64);
#[derive(Debug, Clone, Copy, PartialEq, Eq, Default, Hash, PartialOrd, Ord)]
pub struct ShortAddress(pub u16);
#[derive(Debug, Clone, Copy, PartialEq, Eq)]
pub struct ByteArray<const N: usize>(pub [u8; N]);

macro_rules! newtype {
    ($t:ident, $n:ty) => {
        impl<'a> TryRead<'a, ()> for $t {
            fn try_read(bytes: &'a [u8], _: ()) -> byte::Result<(Self, usize)> {
                let (v, n) = <$n>::try_read(bytes, ())?;
                Ok((Self(v), n))
            }
        }
        impl TryWrite<()> for $t {
            fn try_write(self, bytes: &mut [u8], _: ()) -> byte::Result<usize> {
                self.0.try_write(bytes, ())
            }
        }
    };
}
newtype!(IeeeAddress, u64);
newtype!(ShortAddress, u16);

impl<const N: usize> ByteArray<N> {
    pub fn as_slice(&self) -> &[u8] {
        &self.0
    }
}
impl<'a, const N: usize> TryRead<'a, ()> for ByteArray<N> {
    fn try_read(bytes: &'a [u8], _: ()) -> byte::Result<(Self, usize)> {
        let b = bytes.get(..N).ok_or(byte::Error::Incomplete)?;
        Ok((Self(b.try_into().unwrap()), N))
    }
}
impl<const N: usize> TryWrite<()> for ByteArray<N> {
    fn try_write(self, bytes: &mut [u8], _: ()) -> byte::Result<usize> {
        self.0.as_slice().try_write(bytes, ())
    }
}

#[derive(Debug, Clone)]
pub struct StorageVec<T, const N: usize>(pub heapless::Vec<T, N>);
impl<T, const N: usize> StorageVec<T, N> {
    pub const fn new() -> Self {
        Self(heapless::Vec::new())
    }
}
impl<T, const N: usize> Default for StorageVec<T, N> {
    fn default() -> Self {
        Self::new()
    }
}
impl<T, const N: usize> Deref for StorageVec<T, N> {
    type Target = heapless::Vec<T, N>;
    fn deref(&self) -> &Self::Target {
        &self.0
    }
}
impl<T, const N: usize> DerefMut for StorageVec<T, N> {
    fn deref_mut(&mut self) -> &mut Self::Target {
        &mut self.0
    }
}
impl<'a, T: TryRead<'a, ()>, const N: usize> TryRead<'a, ()> for StorageVec<T, N> {
    fn try_read(bytes: &'a [u8], _: ()) -> byte::Result<(Self, usize)> {
        let offset = &mut 0;
        let n: u8 = bytes.read_with(offset, ())?;
        let mut v = Self::new();
        for _ in 0..n {
            let t = bytes.read_with(offset, ())?;
            v.push(t).map_err(|_| byte::Error::Incomplete)?;
        }
        Ok((v, *offset))
    }
}
impl<T: TryWrite<()>, const N: usize> TryWrite<()> for StorageVec<T, N> {
    fn try_write(self, bytes: &mut [u8], _: ()) -> byte::Result<usize> {
        let offset = &mut 0;
        bytes.write_with(offset, self.0.len() as u8, ())?;
        for t in self.0 {
            bytes.write_with(offset, t, ())?;
        }
        Ok(*offset)
    }
}

pub mod sync {
    use core::cell::RefCell;
    use core::future::{Future, poll_fn};
    use core::pin::pin;
    use core::task::Poll;

    /// A slot for one value: a new one overwrites, taking empties.
    pub struct Signal<T>(RefCell<Option<T>>);
    impl<T> Signal<T> {
        pub const fn new() -> Self {
            Self(RefCell::new(None))
        }
        pub fn signal(&self, value: T) {
            *self.0.borrow_mut() = Some(value);
        }
        pub fn try_take(&self) -> Option<T> {
            self.0.borrow_mut().take()
        }
        pub fn reset(&self) {
            *self.0.borrow_mut() = None;
        }
        pub fn is_signaled(&self) -> bool {
            self.0.borrow().is_some()
        }
        pub async fn wait(&self) -> T {
            poll_fn(|_| self.try_take().map_or(Poll::Pending, Poll::Ready)).await
        }
        /// Looks without taking, for the `state` line; the real one has no such function.
        pub fn peek(&self) -> Option<T>
        where
            T: Clone,
        {
            self.0.borrow().clone()
        }
    }

    /// Polls `fut` first; when it is pending, `timeout`: `None` when that ends.
    pub async fn with_timeout<F: Future, T: Future>(fut: F, timeout: T) -> Option<F::Output> {
        let mut fut = pin!(fut);
        let mut timeout = pin!(timeout);
        poll_fn(|cx| {
            if let Poll::Ready(v) = fut.as_mut().poll(cx) {
                return Poll::Ready(Some(v));
            }
            timeout.as_mut().poll(cx).map(|_| None)
        })
        .await
    }
}
