"""What the converters share: socat-to-capture, pcap-to-capture and cookies-to-order."""
