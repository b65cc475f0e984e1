//! Stands for bt-hci. The parameter types that the connection table holds are numbers and enums with the values of the
//! Core Specification. All below `param` is named by `connection.rs` in functions that are compiled and never run.
#![no_std]
#![allow(async_fn_in_trait)]

pub mod param {
    #[derive(Debug, Clone, Copy, PartialEq, Eq)]
    pub struct AddrKind(pub u8);

    impl AddrKind {
        pub const PUBLIC: AddrKind = AddrKind(0);
        pub const RANDOM: AddrKind = AddrKind(1);
    }

    /// Least significant byte first, as on the wire.
    #[derive(Debug, Clone, Copy, PartialEq, Eq)]
    pub struct BdAddr(pub [u8; 6]);

    #[derive(Debug, Clone, Copy, PartialEq, Eq)]
    pub struct ConnHandle(pub u16);

    #[derive(Debug, Clone, Copy, PartialEq, Eq)]
    pub enum LeConnRole {
        Central = 0,
        Peripheral = 1,
    }

    #[derive(Debug, Clone, Copy, PartialEq, Eq)]
    pub enum DisconnectReason {
        AuthenticationFailure = 0x05,
        RemoteUserTerminatedConn = 0x13,
        RemoteDeviceTerminatedConnLowResources = 0x14,
        RemoteDeviceTerminatedConnPowerOff = 0x15,
        UnsupportedRemoteFeature = 0x1A,
        PairingWithUnitKeyNotSupported = 0x29,
        UnacceptableConnParameters = 0x3B,
    }

    #[derive(Debug, Clone, Copy, PartialEq, Eq)]
    pub struct Status(pub u8);

    #[derive(Debug, Clone, Copy, PartialEq, Eq)]
    pub enum PhyKind {
        Le1M = 1,
        Le2M = 2,
        LeCoded = 3,
        LeCodedS2 = 4,
    }

    #[derive(Debug, Clone, Copy, PartialEq, Eq)]
    pub struct Error(pub u8);

    impl Error {
        pub const UNKNOWN_CONN_IDENTIFIER: Error = Error(0x02);
    }

    #[derive(Debug, Clone, Copy)]
    pub struct FrameSpaceInitiator(pub u8);

    #[derive(Debug, Clone, Copy)]
    pub struct SpacingTypes(pub u16);

    #[derive(Debug, Clone, Copy)]
    pub struct PhyMask(pub u8);

    impl PhyMask {
        pub fn new() -> Self {
            Self(0)
        }
        pub fn set_le_1m_phy(self, _: bool) -> Self {
            self
        }
        pub fn set_le_2m_phy(self, _: bool) -> Self {
            self
        }
        pub fn set_le_coded_phy(self, _: bool) -> Self {
            self
        }
    }

    pub struct AllPhys;

    impl AllPhys {
        pub fn new() -> Self {
            Self
        }
        pub fn set_has_no_rx_phy_preference(self, _: bool) -> Self {
            self
        }
        pub fn set_has_no_tx_phy_preference(self, _: bool) -> Self {
            self
        }
    }

    #[derive(Default)]
    pub enum PhyOptions {
        #[default]
        NoPreferred,
        S2CodingPreferred,
        S8CodingPreferred,
    }

    pub enum FilterDuplicates {
        Disabled,
    }

    pub struct Duration<const US: u32>;

    impl<const US: u32> Duration<US> {
        pub fn as_u16(&self) -> u16 {
            0
        }
    }
}

pub mod event {
    pub struct EventPacket;

    pub mod le {
        pub struct LeEventPacket;
    }
}

pub mod cmd {
    pub trait SyncCmd {
        type Return;
    }

    pub mod status {
        use super::SyncCmd;
        use crate::param::ConnHandle;

        pub struct ReadRssi;

        pub struct Rssi {
            pub rssi: i8,
        }

        impl ReadRssi {
            pub fn new(_: ConnHandle) -> Self {
                Self
            }
        }

        impl SyncCmd for ReadRssi {
            type Return = Rssi;
        }
    }

    pub mod le {
        use super::SyncCmd;
        use crate::param::{AllPhys, ConnHandle, Duration, PhyKind, PhyMask, PhyOptions, SpacingTypes};

        pub struct LeConnUpdate;

        pub struct LeSetPhy;

        impl LeSetPhy {
            pub fn new(_: ConnHandle, _: AllPhys, _: PhyMask, _: PhyMask, _: PhyOptions) -> Self {
                Self
            }
        }

        pub struct LeReadPhy;

        pub struct Phys {
            pub tx_phy: PhyKind,
            pub rx_phy: PhyKind,
        }

        impl LeReadPhy {
            pub fn new(_: ConnHandle) -> Self {
                Self
            }
        }

        impl SyncCmd for LeReadPhy {
            type Return = Phys;
        }

        pub struct LeSetDataLength;

        impl LeSetDataLength {
            pub fn new(_: ConnHandle, _: u16, _: u16) -> Self {
                Self
            }
        }

        impl SyncCmd for LeSetDataLength {
            type Return = ();
        }

        pub struct LeReadLocalSupportedFeatures;

        pub struct Features;

        impl LeReadLocalSupportedFeatures {
            pub fn new() -> Self {
                Self
            }
        }

        impl SyncCmd for LeReadLocalSupportedFeatures {
            type Return = Features;
        }

        impl Features {
            pub fn supports_le_data_packet_length_extension(&self) -> bool {
                false
            }
        }

        pub struct LeFrameSpaceUpdate;

        impl LeFrameSpaceUpdate {
            pub fn new(_: ConnHandle, _: Duration<1>, _: Duration<1>, _: PhyMask, _: SpacingTypes) -> Self {
                Self
            }
        }

        impl SyncCmd for LeFrameSpaceUpdate {
            type Return = ();
        }

        pub struct LeConnectionRateRequest;

        impl LeConnectionRateRequest {
            #[allow(clippy::too_many_arguments)]
            pub fn new(
                _: ConnHandle,
                _: Duration<1>,
                _: Duration<1>,
                _: u16,
                _: u16,
                _: u16,
                _: u16,
                _: Duration<1>,
                _: Duration<1>,
                _: Duration<1>,
            ) -> Self {
                Self
            }
        }

        impl SyncCmd for LeConnectionRateRequest {
            type Return = ();
        }
    }
}

pub mod controller {
    pub trait Controller {
        type Error;
    }

    pub trait ControllerCmdSync<C>: Controller {}

    pub trait ControllerCmdAsync<C>: Controller {}
}
