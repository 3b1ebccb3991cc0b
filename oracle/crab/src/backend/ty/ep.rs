//! Stand-in for src/backend/ty/ep.rs, which was not to be had.
use alloc::boxed::Box;
use core::{future::Future, pin::Pin, task::Context};

use usb_if::{
    endpoint::{RequestId, TransferCompletion, TransferRequest},
    err::TransferError,
};

use super::transfer::Transfer;

pub type EndpointResetFuture = Pin<Box<dyn Future<Output = Result<(), TransferError>> + Send>>;

pub trait EndpointOp {
    fn submit_request(&mut self, request: TransferRequest) -> Result<RequestId, TransferError>;
    fn reclaim_request(&mut self, id: RequestId) -> Option<Result<TransferCompletion, TransferError>>;
    fn register_waker(&self, id: RequestId, cx: &mut Context<'_>);
    fn cancel_request(&mut self, id: RequestId) -> Result<(), TransferError>;
    fn reset(&mut self) -> EndpointResetFuture;
}

pub fn transfer_to_completion(id: RequestId, transfer: Transfer) -> TransferCompletion {
    TransferCompletion {
        id,
        direction: transfer.direction,
        actual_length: transfer.transfer_len,
        iso_packet_actual_lengths: transfer.iso_packet_actual_lengths,
    }
}
