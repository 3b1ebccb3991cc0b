//! Reads an endpoint's bookkeeping. `set_next_id` alone changes something.
use super::{
    super::ring::probe::{self as ring_probe, Store},
    *,
};

pub struct State {
    pub place: usize,
    pub cycle: bool,
    pub outstanding: usize,
    pub next_id: u64,
    pub next_frame: u16,
    pub interval: u8,
    pub halted: bool,
    pub reset_under_way: bool,
}

pub fn state(endpoint: &Endpoint) -> State {
    let (place, cycle) = ring_probe::place(&endpoint.ring);
    State {
        place,
        cycle,
        outstanding: endpoint.outstanding_trbs,
        next_id: endpoint.next_request_id,
        next_frame: endpoint.next_iso_frame_id,
        interval: endpoint.interval,
        halted: endpoint.halted.load(Ordering::Acquire),
        reset_under_way: endpoint.reset_in_progress.load(Ordering::Acquire),
    }
}

/// The ids in flight and the stopped ones, in order.
pub fn ids(endpoint: &Endpoint) -> (Vec<u64>, Vec<u64>) {
    (
        endpoint.inflight.keys().map(|id| id.0).collect(),
        endpoint.stopped_completions.iter().map(|id| id.0).collect(),
    )
}

/// The addresses of the TRBs of a request in flight that are looked at when it is reclaimed.
pub fn trbs(endpoint: &Endpoint, id: u64) -> Vec<BusAddr> {
    match endpoint.inflight.get(&EndpointRequestId(id)) {
        None => Vec::new(),
        Some(submitted) => match &submitted.kind {
            SubmittedTdKind::Normal { completion_trb } => vec![completion_trb.0],
            SubmittedTdKind::Control(td) => (*td).trbs().map(|(trb, _)| trb.0).collect(),
            SubmittedTdKind::Iso { packets } => packets.iter().map(|packet| packet.trb.0).collect(),
        },
    }
}

/// How many records document 01's dock would hold: in flight and stopped.
pub fn held(endpoint: &Endpoint) -> usize {
    endpoint.inflight.len() + endpoint.stopped_completions.len()
}

pub fn is_stopped(endpoint: &Endpoint, id: u64) -> bool {
    endpoint.stopped_completions.contains(&EndpointRequestId(id))
}

pub fn is_in_flight(endpoint: &Endpoint, id: u64) -> bool {
    endpoint.inflight.contains_key(&EndpointRequestId(id))
}

/// Whether the Rust would answer QueueFull to this request, by its own two tests.
pub fn would_refuse_as_full(endpoint: &Endpoint, request: &TransferRequest) -> bool {
    let required = Endpoint::required_trbs_for_request(request);
    endpoint.reset_in_progress.load(Ordering::Acquire) || endpoint.ensure_ring_capacity(required).is_err()
}

pub fn take_stores(endpoint: &mut Endpoint) -> Vec<Store> {
    ring_probe::take_stores(&mut endpoint.ring)
}

pub fn slot(endpoint: &Endpoint, index: usize) -> Option<[u32; 4]> {
    ring_probe::slot(&endpoint.ring, index)
}

pub fn set_next_id(endpoint: &mut Endpoint, id: u64) {
    endpoint.next_request_id = id;
}

pub fn retire(endpoint: &mut Endpoint) {
    endpoint.retire_all_after_stop();
}

pub fn stop(endpoint: &Endpoint) -> EndpointResetFuture {
    endpoint.stop_future()
}

pub fn resume(endpoint: &Endpoint) -> EndpointResetFuture {
    endpoint.resume_future()
}
