/* The calls that speed/calls.c makes, on the side it is built for: plain C with -DPLAIN, else the proved library. */
#ifndef SIDE_H
#define SIDE_H

#ifdef PLAIN

#include "plain.h"
#include "plain_bench.h"

static struct plain_picture picture;
static struct plain_bench bench;

#define FRESH(depth) plain_fresh(&picture, depth)
#define HEAR(identifier, remote, data, count) plain_hear(&picture, identifier, remote, data, count)
#define STEP_BACK() plain_step_back(&picture)
#define CELL(address, location) plain_cell(&picture, address, location)
#define MEMORY_ROW(address, out, room) plain_memory_row(&picture, address, out, room)
#define NAME(address, name, out, room) plain_name(&picture, address, name, out, room)
#define PLAN(address, out, room) plain_plan(&picture, address, out, room)
#define BENCH_NEW(address, cells, count) plain_bench_new(&bench, address, cells, count, 1, 12, 5)
#define BENCH_TAKE(identifier, remote, data, count, out, room) plain_bench_take(&bench, identifier, remote, data, count, out, room)

#else

#include "velbus.h"

static uint8_t picture[VELBUS_PICTURE_SIZE];
static uint8_t bench[VELBUS_BENCH_SIZE];

#define FRESH(depth) velbus_fresh_depth(picture, sizeof picture, depth)
#define HEAR(identifier, remote, data, count) velbus_hear(picture, sizeof picture, identifier, remote, data, count)
#define STEP_BACK() velbus_step_back(picture, sizeof picture)
#define CELL(address, location) velbus_cell(picture, sizeof picture, address, location)
#define MEMORY_ROW(address, out, room) velbus_memory_row(picture, sizeof picture, address, out, room)
#define NAME(address, name, out, room) velbus_name(picture, sizeof picture, address, name, out, room)
#define PLAN(address, out, room) velbus_plan(picture, sizeof picture, address, out, room)
#define BENCH_NEW(address, cells, count) velbus_bench_new(bench, sizeof bench, address, cells, count, 1, 12, 5)
#define BENCH_TAKE(identifier, remote, data, count, out, room) velbus_bench_take(bench, sizeof bench, identifier, remote, data, count, out, room)

#endif
#endif
