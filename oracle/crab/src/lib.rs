//! crab-usb 0.12.1's ring, endpoint, queue, event ring, command ring and errors, compiled
//! unchanged: each `include!` below takes one whole file of it. What stands between the includes is
//! what those files lean on and what was not to be had with them. `probe` modules read private fields; they
//! change nothing but where their name says so.
#![no_std]
extern crate alloc;
#[macro_use]
extern crate log;
#[macro_use]
extern crate anyhow;

pub use usb_if;

#[macro_use]
mod macros;

pub mod err {
    include!(env!("CRAB_ERR"));
}

// src/lib.rs has this glob, so that `crate::osal` and `crate::queue` are kmod's.
pub use backend::kmod::*;

define_int_type!(BusAddr, u64);

#[cfg(feature = "drive")]
pub mod dock;
#[cfg(feature = "drive")]
pub mod drive;
#[cfg(feature = "drive")]
pub mod exceptions;

pub mod backend {
    pub use kmod::xhci::Dci;

    pub mod ty {
        pub mod ep;
        pub mod transfer {
            include!(env!("CRAB_TY_TRANSFER"));
        }
    }

    pub mod kmod {
        pub mod osal;

        #[cfg(not(feature = "plain-queue"))]
        #[allow(dead_code)]
        pub mod queue {
            include!(env!("CRAB_QUEUE"));
        }
        #[cfg(feature = "plain-queue")]
        #[path = "../../plain_queue.rs"]
        pub mod queue;

        mod transfer {
            include!(env!("CRAB_KMOD_TRANSFER"));
        }

        #[allow(dead_code)]
        pub mod xhci {
            pub(crate) use def::DirectionExt;
            pub use def::{Dci, SlotId};

            pub mod reg;
            pub mod sync;

            mod def {
                include!(env!("CRAB_DEF"));
            }
            pub mod ring {
                include!(env!("CRAB_RING"));
                pub mod probe;
            }
            pub mod event {
                include!(env!("CRAB_EVENT"));
            }
            pub mod transfer {
                include!(env!("CRAB_TRANSFER"));
            }
            pub mod cmd {
                include!(env!("CRAB_CMD"));
                pub mod probe;
            }
            pub mod endpoint {
                include!(env!("CRAB_ENDPOINT"));
                pub mod probe;
            }
        }
    }
}
