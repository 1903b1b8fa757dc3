//! How long the bound of a certificate's tree takes.

use crate::certificate::Cert;
use crate::shim::Global;
use crate::solomon_reader::Instance;
use crate::tree_bound::bound;
use std::time::Instant;

/// As in `checker`.
const STATE_LIMIT: usize = 20_000_000;

/// Prints leaves, the bound in tenths that is written and the one that is found, and seconds.
pub fn tell(instance: &Instance, certificate: &str) {
    let cert = Cert::read(certificate);
    let parts = cert.parts();
    let begin = Instant::now();
    let found = bound(Global, instance, &cert, STATE_LIMIT).expect("states");
    let (leaves, seconds) = (parts.nodes.len() / 2 + 1, begin.elapsed().as_secs_f64());
    println!("leaves {leaves} written {} found {} s {seconds:.3}", parts.bound.get(), found.get());
}
