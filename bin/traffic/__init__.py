"""What bin/recording and bin/compare are made of: recordings, reports, messages on the wire, and files of
other programs."""
