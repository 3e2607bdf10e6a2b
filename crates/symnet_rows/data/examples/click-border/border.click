// The border of a site: what stands between the outside and its web server.

// a frame from outside loses its Ethernet header; the rules of the site are asked in order
entry :: Strip(14)
  -> policy :: IPFilter(deny src net 192.0.2.0/24,                          // the site's own addresses
                        allow dst host 192.0.2.80 && tcp && dst port 443,   // the web server
                        allow dst host 192.0.2.80 and icmp)                 /* and whether it is there */
  -> hops :: DecIPTTL
  -> kinds :: IPClassifier(tcp, -);
hops [1] -> expired :: Discard;

// the server gets what is for it, and the monitor a copy; whoever asks whether it is there gets the packet back
kinds [0] -> inside :: EtherEncap(0x0800, 02:00:00:00:00:01, 02:00:00:00:00:50) -> tap :: Tee(2);
kinds [1] -> [0] echo :: IPMirror -> outside :: EtherEncap(0x0800, 02:00:00:00:00:01, 02:00:00:00:00:02);
