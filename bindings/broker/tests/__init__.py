import signal

# (nohup, or a shell that runs this in the background, has it ignore these, and so would what it starts)
signal.signal(signal.SIGINT, signal.default_int_handler)
signal.signal(signal.SIGHUP, signal.SIG_DFL)
signal.signal(signal.SIGQUIT, signal.SIG_DFL)
