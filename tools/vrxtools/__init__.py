"""What the tools share: how they speak (told), their own texts (texts), RTP (rtp), packet captures (packets),
the streams of a call (streams), what happened in a call (story), and its picture (picture)."""
