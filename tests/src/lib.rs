//! Tests of the public calls, by the layer that they call. They show what no contract says: that
//! memory is found, values worked out by hand from the public documents, texts of faults, devices
//! that fail.

#[cfg(test)]
mod audits;
#[cfg(test)]
mod disk;
#[cfg(test)]
mod folders;
#[cfg(test)]
mod following;
#[cfg(test)]
mod formats;
#[cfg(test)]
mod kept;
#[cfg(test)]
mod merging;
#[cfg(test)]
mod operations;
