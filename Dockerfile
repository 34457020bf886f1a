# The tools of beebtube, with cc65 for programs in C and pytest:
#   docker build -t beebtube .
#   docker run --rm -v "$PWD:/work" beebtube beebtube-execute PROGRAM
FROM debian:bookworm-slim
RUN apt-get update \
    && apt-get install -y --no-install-recommends cc65 python3-pip python3-pytest \
    && rm -rf /var/lib/apt/lists/*
COPY . /tmp/beebtube
RUN pip install --break-system-packages --no-index /tmp/beebtube && rm -rf /tmp/beebtube
WORKDIR /work
