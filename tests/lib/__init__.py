"""What tests share: paths, ports, requests, servers, nginx, set-ups, journals, and waiting."""
