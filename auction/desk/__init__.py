"""The manager's desk: what people do to a running auction in a browser, and the metrics."""
