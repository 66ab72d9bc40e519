FROM debian:12-slim
RUN apt-get update && apt-get install -y --no-install-recommends jq python3
COPY . /opt/wflow
RUN /opt/wflow/bin/program --found
ENV WFLOW=/opt/wflow/bin/x86_64-linux/wflow PATH=/opt/wflow/bin/x86_64-linux:/opt/wflow/bin:$PATH
