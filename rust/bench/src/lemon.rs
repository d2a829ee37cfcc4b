//! LEMON's `Preflow` on the flow problem that withdrawing solves, by way of `lemon/preflow.cpp`.
//! The build script finds out whether LEMON is installed.

/// Whether the benchmark was built with LEMON.
pub const INSTALLED: bool = cfg!(lemon);

#[cfg(lemon)]
pub use installed::Network;

#[cfg(not(lemon))]
pub use missing::Network;

#[cfg(lemon)]
mod installed {
    /// What C++ calls `Network`; only pointers to it are held here.
    #[repr(C)]
    struct Opaque([u8; 0]);

    unsafe extern "C" {
        fn lemon_network(n: usize, capacity: *const u32, demand: *const u32) -> *mut Opaque;
        fn lemon_run(network: *mut Opaque);
        fn lemon_carried(network: *const Opaque, withdrawn: *mut u32);
        fn lemon_free(network: *mut Opaque);
    }

    /// The graph of one demand, and the flow that `Preflow` finds in it.
    pub struct Network {
        n: usize,
        network: *mut Opaque,
    }

    impl Network {
        /// The graph of N×N demands and 2N line capacities, in tables of just that length. What
        /// the library asks of its callers is tested here too.
        pub fn new(n: usize, capacity: &[u32], demand: &[u32]) -> Option<Network> {
            assert!(n <= 64 && capacity.len() == 2 * n && demand.len() == n * n);
            assert!(capacity.iter().max() <= Some(&1_024) && demand.iter().max() <= Some(&65_535));
            let network = unsafe { lemon_network(n, capacity.as_ptr(), demand.as_ptr()) };
            Some(Network { n, network })
        }

        /// Finds a greatest flow.
        pub fn run(&mut self) {
            unsafe { lemon_run(self.network) }
        }

        /// The same, and writes what each pair carries.
        pub fn withdraw(&mut self, withdrawn: &mut [u32]) {
            assert!(withdrawn.len() == self.n * self.n);
            self.run();
            withdrawn.fill(0);
            unsafe { lemon_carried(self.network, withdrawn.as_mut_ptr()) };
        }
    }

    impl Drop for Network {
        fn drop(&mut self) {
            unsafe { lemon_free(self.network) };
        }
    }
}

#[cfg(not(lemon))]
mod missing {
    /// There is none without LEMON.
    pub enum Network {}

    impl Network {
        pub fn new(_: usize, _: &[u32], _: &[u32]) -> Option<Network> {
            None
        }

        pub fn run(&mut self) {
            match *self {}
        }

        pub fn withdraw(&mut self, _: &mut [u32]) {
            match *self {}
        }
    }
}
