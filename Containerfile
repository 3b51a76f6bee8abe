# A mirror that is brought up to date every minute, over the package that ./package made:
#
#   podman build --format docker --build-arg PACKAGE=out/osmrepl_0.3.0_amd64.deb -t osmrepl .
#   podman run --rm -v mirror:/var/lib/osmrepl -v "$PWD:/in:ro" osmrepl start /in/extract.osm.pbf mirror.save
#   podman run -d -v mirror:/var/lib/osmrepl osmrepl
#
# It is healthy if the mirror is at most an hour old. The format docker is the one that keeps a health check.
ARG BASE=docker.io/library/debian:12-slim
FROM ${BASE}
ARG PACKAGE
COPY ${PACKAGE} /tmp/osmrepl.deb
RUN apt-get -q update \
    && DEBIAN_FRONTEND=noninteractive apt-get -q -y install /tmp/osmrepl.deb \
    && rm -rf /tmp/osmrepl.deb /var/lib/apt/lists/* /var/cache/apt/archives/*.deb
USER osmrepl
VOLUME /var/lib/osmrepl
WORKDIR /var/lib/osmrepl
HEALTHCHECK --interval=1m --start-period=5m CMD ["/usr/share/osmrepl/healthy", "mirror.save"]
ENTRYPOINT ["osmrepl-planet"]
CMD ["mirror", "mirror.save", "--every", "60"]
