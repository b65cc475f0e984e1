//! Stands for the parts of trouble-host's own `lib.rs` (and of its modules not handed over) that the compared files
//! name. The table uses the first part; the second is named only by functions that are compiled and never run.

use bt_hci::param::{AddrKind, BdAddr};

#[derive(Debug, Clone, Copy, PartialEq, Eq)]
pub struct Address {
    pub kind: AddrKind,
    pub addr: BdAddr,
}

/// Without the feature `security` an identity is an address.
#[derive(Debug, Clone, Copy, PartialEq, Eq)]
pub struct Identity {
    pub addr: Address,
}

impl Identity {
    /// Equal kind byte and equal six address bytes, as document 01 says.
    pub fn match_address(&self, address: &Address) -> bool {
        self.addr == *address
    }
}

impl From<Address> for Identity {
    fn from(addr: Address) -> Self {
        Self { addr }
    }
}

#[derive(Debug, PartialEq)]
pub enum Error {
    NotFound,
    Disconnected,
    OutOfMemory,
    NotSupported,
    InvalidValue,
    Hci(bt_hci::param::Error),
}

pub trait Packet: Sized + AsRef<[u8]> + AsMut<[u8]> {}

pub trait PacketPool: 'static {
    type Packet: Packet;
    const MTU: usize;
}

// ---- compiled, never run

pub use bt_hci::controller::Controller;

pub mod prelude {
    use crate::connection::Connection;
    use crate::{Error, PacketPool};
    use core::marker::PhantomData;

    pub mod sar {
        /// Reassembly is left out of the comparison: nothing is ever put into it.
        pub struct PacketReassembly<P>(core::marker::PhantomData<P>);

        impl<P> PacketReassembly<P> {
            pub const fn new() -> Self {
                Self(core::marker::PhantomData)
            }

            pub fn clear(&mut self) {}
        }
    }

    pub struct AttributeServer<'values, M, P, const ATT_MAX: usize, const CONN_MAX: usize>(
        PhantomData<(&'values (), M, P)>,
    );

    pub struct GattConnection<'stack, 'server, P: PacketPool>(PhantomData<(&'server (), Connection<'stack, P>)>);

    impl<'stack, 'server, P: PacketPool> GattConnection<'stack, 'server, P> {
        pub fn try_new<T>(_: Connection<'stack, P>, _: &'server T) -> Result<Self, Error> {
            unreachable!()
        }
    }
}

pub mod host {
    pub trait EventHandler {}
}

#[allow(dead_code)]
pub mod types {
    pub mod l2cap {
        pub struct ConnParamUpdateRes {
            pub result: u16,
        }

        pub struct ConnParamUpdateReq {
            pub interval_min: u16,
            pub interval_max: u16,
            pub latency: u16,
            pub timeout: u16,
        }
    }
}

pub enum BleHostError<E> {
    BleHost(Error),
    Controller(E),
}

impl<E> From<Error> for BleHostError<E> {
    fn from(error: Error) -> Self {
        Self::BleHost(error)
    }
}

pub struct Stack<'stack, C, P>(core::marker::PhantomData<(&'stack (), C, P)>);

pub struct Host<C>(core::marker::PhantomData<C>);

impl<C, P> Stack<'_, C, P> {
    pub fn host(&self) -> Host<C> {
        unreachable!()
    }
}

impl<C: Controller> Host<C> {
    pub async fn command<T: bt_hci::cmd::SyncCmd>(&self, _: T) -> Result<T::Return, BleHostError<C::Error>> {
        unreachable!()
    }

    pub async fn async_command<T>(&self, _: T) -> Result<(), BleHostError<C::Error>> {
        unreachable!()
    }

    pub async fn send_conn_param_update_res<T>(
        &self,
        _: bt_hci::param::ConnHandle,
        _: &T,
    ) -> Result<(), BleHostError<C::Error>> {
        unreachable!()
    }

    pub async fn send_conn_param_update_req<T>(
        &self,
        _: bt_hci::param::ConnHandle,
        _: &T,
    ) -> Result<(), BleHostError<C::Error>> {
        unreachable!()
    }
}

pub fn bt_hci_duration<const US: u32>(_: embassy_time::Duration) -> bt_hci::param::Duration<US> {
    unreachable!()
}
