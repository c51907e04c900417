#!/bin/sh
# Builds the yardsticks. usage: build.sh DIR   (Debian: libigraph-dev libboost-graph-dev pkg-config)
# CXX: compiler (default g++). CXXFLAGS (default -O2).
set -eu
to=${1:?usage: build.sh DIR}; here=$(dirname "$0")/peers; mkdir -p "$to"; cxx=${CXX:-g++}; fl=${CXXFLAGS:--O2}
$cxx $fl -std=c++17 "$here/peer_plain.cpp" -o "$to/peer_plain"
$cxx $fl -std=c++17 "$here/peer_order.cpp" -o "$to/peer_order"
$cxx $fl -std=c++17 "$here/peer_topo.cpp" -o "$to/peer_topo"
$cxx $fl -std=c++17 "$here/peer_bgl.cpp" -o "$to/peer_bgl" || echo "without Boost" >&2
$cxx $fl -std=c++17 "$here/peer_igraph.cpp" -o "$to/peer_igraph" $(pkg-config --cflags --libs igraph) || echo "without igraph" >&2
