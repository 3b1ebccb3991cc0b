//! The Rust's side: crab-usb's endpoint, unchanged, over plain stand-ins.
use std::{hint::black_box, ptr::NonNull, sync::Arc};

use ax_sync::{SpinLock, SpinRwLock};
use crab_oracle::{
    BusAddr,
    backend::{
        Dci,
        kmod::{
            osal::Kernel,
            xhci::{
                SlotId,
                cmd::CommandRing,
                endpoint::Endpoint,
                reg::{SlotBell, XhciRegisters},
                transfer::TransferResultHandler,
            },
        },
        ty::ep::EndpointOp,
    },
};
use dma_api::DmaDirection;
use usb_if::{
    endpoint::{RequestId, TransferBuffer, TransferRequest},
    transfer::Direction,
};
use xhci::ring::trb::event;

use crate::{BASE, BUFFER, DCI, Load, SLOT, Side};

pub struct Rust {
    endpoint: Endpoint,
    handler: TransferResultHandler,
    bytes: Vec<u8>,
    lengths: Vec<usize>,
    /// The next request, made outside of the time that is taken.
    request: Option<TransferRequest>,
}

impl Rust {
    pub fn new(slots: usize, load: &Load) -> Self {
        let reg = Arc::new(SpinRwLock::new(XhciRegisters::default()));
        let kernel = Kernel::new(slots, BASE, u64::MAX, false);
        kernel.set_buffer_addr(BUFFER);
        let commands = CommandRing::new(
            DmaDirection::Bidirectional,
            &Kernel::new(4096, 0x7000_0000, u64::MAX, false),
            reg.clone(),
        )
        .expect("a command ring");
        let bell = Arc::new(SpinLock::new(SlotBell::default()));
        let mut endpoint = Endpoint::new(SlotId::from(SLOT), Dci::from(DCI), &kernel, bell, commands).expect("an endpoint");
        endpoint.configure_periodic(usize::from(load.packet), usize::from(load.burst), 1);
        let handler = TransferResultHandler::new(reg);
        handler.register_queue(SLOT, DCI, endpoint.ring()).expect("an empty route");
        Self {
            endpoint,
            handler,
            bytes: vec![0; load.bytes()],
            lengths: load.lengths.clone(),
            request: None,
        }
    }
}

impl Side for Rust {
    fn prepare(&mut self) {
        let buffer = TransferBuffer {
            ptr: NonNull::new(self.bytes.as_mut_ptr()).expect("a vector's pointer"),
            len: self.bytes.len(),
        };
        self.request = Some(TransferRequest::Isochronous {
            direction: Direction::In,
            buffer: Some(buffer),
            packets: black_box(&self.lengths).clone(),
        });
    }

    fn submit(&mut self) -> u64 {
        rust_submit(self)
    }

    fn hand_over(&mut self, words: [u32; 4]) {
        rust_hand_over(self, words);
    }

    fn reclaim(&mut self, id: u64) -> u64 {
        rust_reclaim(self, id)
    }
}

// named, so that callgrind can tell them apart
#[unsafe(no_mangle)]
#[inline(never)]
fn rust_submit(side: &mut Rust) -> u64 {
    let request = side.request.take().expect("a request was made");
    side.endpoint.submit_request(request).expect("admitted").raw()
}

#[unsafe(no_mangle)]
#[inline(never)]
fn rust_hand_over(side: &mut Rust, words: [u32; 4]) {
    let Ok(event::Allowed::TransferEvent(event)) = event::Allowed::try_from(words) else {
        unreachable!("type 32")
    };
    // SAFETY: one thread, no lock held.
    let taken = unsafe {
        side.handler
            .set_finished(event.slot_id(), event.endpoint_id(), BusAddr::from(event.trb_pointer()), event)
    };
    assert!(taken);
}

#[unsafe(no_mangle)]
#[inline(never)]
fn rust_reclaim(side: &mut Rust, id: u64) -> u64 {
    let done = side
        .endpoint
        .reclaim_request(RequestId::new(id))
        .expect("finished")
        .expect("accepted");
    assert_eq!(done.iso_packet_actual_lengths.len(), side.lengths.len());
    done.actual_length as u64
}
