//! Stands for embassy-sync: a bounded first-in-first-out `Channel` and a `WakerRegistration`. Each has more methods
//! than in the published crate, by which the driver looks at what happened; they are marked.

pub mod blocking_mutex {
    pub mod raw {
        /// Nothing is locked: the oracle has one thread.
        pub trait RawMutex {}

        pub struct NoopRawMutex;

        impl RawMutex for NoopRawMutex {}
    }
}

pub mod channel {
    use core::cell::{Cell, RefCell};
    use core::future::poll_fn;
    use core::marker::PhantomData;
    use core::task::{Context, Poll};
    use std::collections::VecDeque;

    use crate::blocking_mutex::raw::RawMutex;
    use crate::waitqueue::WakerRegistration;

    #[derive(Debug)]
    pub enum TrySendError<T> {
        Full(T),
    }

    /// "A bounded channel for communicating between asynchronous tasks": at most N messages, received in the order in
    /// which they were sent.
    pub struct Channel<M: RawMutex, T, const N: usize> {
        queue: RefCell<VecDeque<T>>,
        receiver: RefCell<WakerRegistration>,
        senders: RefCell<WakerRegistration>,
        refused: Cell<usize>,
        cleared: Cell<u32>,
        mutex: PhantomData<M>,
    }

    impl<M: RawMutex, T, const N: usize> Channel<M, T, N> {
        pub const fn new() -> Self {
            Self {
                queue: RefCell::new(VecDeque::new()),
                receiver: RefCell::new(WakerRegistration::new()),
                senders: RefCell::new(WakerRegistration::new()),
                refused: Cell::new(0),
                cleared: Cell::new(0),
                mutex: PhantomData,
            }
        }

        /// The message is handed back where N are waiting already.
        pub fn try_send(&self, message: T) -> Result<(), TrySendError<T>> {
            let mut queue = self.queue.borrow_mut();
            if queue.len() >= N {
                self.refused.set(self.refused.get() + 1);
                return Err(TrySendError::Full(message));
            }
            queue.push_back(message);
            self.receiver.borrow_mut().wake();
            Ok(())
        }

        pub fn poll_ready_to_send(&self, cx: &mut Context<'_>) -> Poll<()> {
            if self.queue.borrow().len() < N {
                return Poll::Ready(());
            }
            self.senders.borrow_mut().register(cx.waker());
            Poll::Pending
        }

        pub fn poll_receive(&self, cx: &mut Context<'_>) -> Poll<T> {
            match self.queue.borrow_mut().pop_front() {
                Some(message) => {
                    self.senders.borrow_mut().wake();
                    Poll::Ready(message)
                }
                None => {
                    self.receiver.borrow_mut().register(cx.waker());
                    Poll::Pending
                }
            }
        }

        pub async fn send(&self, message: T) {
            poll_fn(|cx| self.poll_ready_to_send(cx)).await;
            let _ = self.try_send(message);
        }

        pub async fn receive(&self) -> T {
            poll_fn(|cx| self.poll_receive(cx)).await
        }

        pub fn clear(&self) {
            self.queue.borrow_mut().clear();
            self.refused.set(0);
            self.cleared.set(self.cleared.get() + 1);
            self.senders.borrow_mut().wake();
        }

        /// Added: the waiting messages, oldest first.
        pub fn look<R>(&self, f: impl FnOnce(&VecDeque<T>) -> R) -> R {
            f(&self.queue.borrow())
        }

        /// Added: how many messages `try_send` has handed back since the channel was made or cleared.
        pub fn refused(&self) -> usize {
            self.refused.get()
        }

        /// Added: how often the channel was cleared.
        pub fn cleared(&self) -> u32 {
            self.cleared.get()
        }
    }
}

pub mod waitqueue {
    use core::task::Waker;

    /// "Utility struct to register and wake a waker": one place; a waker displaced by another is woken.
    #[derive(Debug, Default)]
    pub struct WakerRegistration {
        waker: Option<Waker>,
        woken: bool,
    }

    impl WakerRegistration {
        pub const fn new() -> Self {
            Self {
                waker: None,
                woken: false,
            }
        }

        pub fn register(&mut self, waker: &Waker) {
            match &self.waker {
                Some(other) if other.will_wake(waker) => {}
                _ => {
                    if let Some(displaced) = self.waker.replace(waker.clone()) {
                        displaced.wake();
                    }
                }
            }
        }

        pub fn wake(&mut self) {
            self.woken = true;
            if let Some(waker) = self.waker.take() {
                waker.wake();
            }
        }

        /// Added: whether `wake` was called since this was last asked, with or without a waker registered.
        pub fn take_woken(&mut self) -> bool {
            core::mem::replace(&mut self.woken, false)
        }
    }
}
