// SPDX-License-Identifier: MIT OR Apache-2.0
//! A run put away, and taken up again.
use crate::{abi, raw, run, Refusal, Reply, Run};

/// The bytes of a run that is put away.
pub const STORED_SIZE: usize = 2048;

impl Run {
    /// The run, put away: bytes for a file, from which [`Run::load`] takes it up after a restart, or on another tablet. The run is only
    /// read, and may go on.
    ///
    /// Samples are not among them: keep the slice that you lend to the answers yourself. The bytes are the same on every machine;
    /// docs/STORED.md has each of them. Every NaN is stored by the bits 0x7ff8000000000000, all other numbers by their own.
    ///
    /// A crash while the file is written is the app's affair. Write to a new file beside the old one, flush it to the disk by
    /// [`sync_all`](std::fs::File::sync_all), then [`rename`](std::fs::rename) it over the old one: then either form stands, whole.
    /// examples/rust/src/away.rs does so.
    ///
    /// ```
    /// use gauss_jackson::{Run, Settings, Triple};
    /// # fn force(_: f64, r: Triple, _: Triple) -> Triple { Triple { x: -r.x, y: -r.y, z: -r.z } }
    /// # let (r0, v0) = (Triple::from([1.0, 0.0, 0.0]), Triple::from([0.0, 1.0, 0.0]));
    /// # let settings = Settings { h: 0.25, ..Settings::default() };
    /// let (mut run, _) = Run::start(settings, 0.0, 10.0, r0, v0)?;
    /// let form = run.store()?;
    ///
    /// // Another day.
    /// let (mut again, question) = Run::load(&form)?;
    /// assert_eq!(run.open_question(), Ok(question));
    /// assert_eq!(again.drive(force, &mut []), run.drive(force, &mut []));
    /// # Ok::<(), gauss_jackson::Refusal>(())
    /// ```
    ///
    /// # Errors
    ///
    /// [`Refusal::NoQuestion`] where the run has ended.
    pub fn store(&self) -> Result<[u8; STORED_SIZE], Refusal> {
        let mut form = [0; STORED_SIZE];
        // The array gives pointer and true count.
        Refusal::told(unsafe { raw::gj_store(&self.0, form.as_mut_ptr(), form.len()) })?;
        Ok(form)
    }

    /// The run that was put away, with its open question. The same questions follow as if it had never been put away, and the same bits.
    ///
    /// - An older form drops the answers accepted since: they no longer count, and are asked again.
    /// - A block's check is a sum, no signature: it finds accidents, not forgers. Any one changed word is found; two that changed places are
    ///   not.
    /// - Blocks mixed from several storings may load unnoticed. They are then a run of their own, of which nothing is promised but the rules
    ///   of each single answer.
    /// - Stored again at once, a loaded form gives the same bytes, patterns of NaN aside.
    ///
    /// ```
    /// use gauss_jackson::{Refusal, Run};
    /// // A file that is cut short: the app goes on with what it has.
    /// assert_eq!(Run::load(&[0; 100]).unwrap_err(), Refusal::StoredShape);
    /// ```
    ///
    /// # Errors
    ///
    /// In this order: [`Refusal::StoredShape`] for any other length than [`STORED_SIZE`] and for a block whose number or check is wrong,
    /// [`Refusal::StoredContent`] for whole blocks of another form number, or that hold what is no run.
    pub fn load(form: &[u8]) -> Result<(Run, Reply), Refusal> {
        abi::must_be_ours();
        // All zeros are an ended run, which a refusal leaves as it was.
        let mut loaded = raw::Run([0; 132]);
        let reply = unsafe { raw::gj_load(&mut loaded, form.as_ptr(), form.len()) };
        Ok((Run(loaded), run::read(reply)?))
    }
}
