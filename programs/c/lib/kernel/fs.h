#error "the machine has no folders: its files stand side by side, and no call lists them, so that find and ls can't be"
