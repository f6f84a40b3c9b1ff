/* Runs the library's calls on a scene. */
#ifndef OURS_H
#define OURS_H

#include "scene.h"

enum { PACKET = 1500 };

/* Returns how many packets of this length the wire stream makes. */
size_t packet_count(const struct scene *s);

/* Sends or receives, in the scene's number of calls. */
void run_ours(struct scene *s, enum direction direction);
/* Receives by packets, whatever the direction, in as many sessions as the scene has calls. */
void run_packets(struct scene *s, enum direction direction);

/* Receives as many empty packets, in one session. */
void run_empty(struct scene *s, enum direction direction);

/* Opens a session for one of the scene's calls. */
garoalva_session open_session(struct scene *s, size_t call);
/* Receives the wire's bytes from one place to another, in packets. */
garoalva_session receive_packets(struct scene *s, garoalva_session session, size_t from, size_t to);
void finish_session(struct scene *s, garoalva_session session);

/* Returns whether the key holds an error, and clears it. */
bool found_error(struct scene *s);

#endif
