//! The three classes of drivers.

#[derive(Clone, Copy, PartialEq, Eq, Hash, Debug)]
pub enum Class {
    Block,
    Net,
    Sound,
}

/// The entries of a driver. [`Class::entries`] lists those of a class, in order.
#[derive(Clone, Copy, PartialEq, Eq, Debug)]
pub enum Entry {
    Init,
    Read,
    Write,
    Send,
    Poll,
    Open,
    Play,
    Close,
    Get,
    Set,
}

impl Class {
    pub fn from_name(name: &str) -> Option<Class> {
        [Class::Block, Class::Net, Class::Sound]
            .into_iter()
            .find(|class| class.name() == name)
    }

    pub fn name(self) -> &'static str {
        match self {
            Class::Block => "block",
            Class::Net => "net",
            Class::Sound => "sound",
        }
    }

    /// What a driver registers as.
    pub fn code(self) -> u32 {
        self as u32
    }

    pub fn entries(self) -> &'static [Entry] {
        match self {
            Class::Block => &[
                Entry::Init,
                Entry::Read,
                Entry::Write,
                Entry::Get,
                Entry::Set,
            ],
            Class::Net => &[
                Entry::Init,
                Entry::Send,
                Entry::Poll,
                Entry::Get,
                Entry::Set,
            ],
            Class::Sound => &[
                Entry::Init,
                Entry::Open,
                Entry::Play,
                Entry::Close,
                Entry::Get,
                Entry::Set,
            ],
        }
    }

    /// The configuration at first.
    pub fn defaults(self) -> [u32; 4] {
        match self {
            Class::Block => [0, 0, 0, 0],
            Class::Net => [100, 1, 0, 0],
            Class::Sound => [8000, 5, 1, 0],
        }
    }

    /// The greatest value of each key.
    pub fn maxima(self) -> [u32; 4] {
        match self {
            Class::Block => [1, 8, u32::MAX, u32::MAX],
            Class::Net => [1000, 1, 255, u32::MAX],
            Class::Sound => [48000, 10, 2, u32::MAX],
        }
    }
}

impl Entry {
    pub fn name(self) -> &'static str {
        match self {
            Entry::Init => "init",
            Entry::Read => "read",
            Entry::Write => "write",
            Entry::Send => "send",
            Entry::Poll => "poll",
            Entry::Open => "open",
            Entry::Play => "play",
            Entry::Close => "close",
            Entry::Get => "get",
            Entry::Set => "set",
        }
    }
}
