//! What the emulated unit is told about itself.

bit_set! {
    /// What the emulated unit has, and E2H as the guest has set it. A run, the check of a batch and the writers take
    /// them.
    ///
    /// ```
    /// use tahvenno::Features;
    /// let features = Features::S1P | Features::S2P;
    /// assert!(features.contains(Features::S2P) && !features.contains(Features::HYP));
    /// ```
    Features {
        /// Stage 1.
        S1P,
        /// Stage 2.
        S2P,
        /// ASIDs of 16 bits; without it a command whose ASID is wider than 8 removes nothing.
        ASID16,
        /// VMIDs of 16 bits; without it a command whose VMID is wider than 8 removes nothing.
        VMID16,
        /// The hypervisor's own mappings and the commands about them.
        HYP,
        /// Ranges in commands by address.
        RIL,
        /// The device permission table and the commands about it.
        DPT,
        /// No feature but a setting: the hypervisor's mappings have ASIDs (SMMU_CR2.E2H).
        E2H,
    }
}
