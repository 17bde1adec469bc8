/* Loaded before the driver of the rack: alters one bit, of the last byte, of the ALTER-th packet of kind ALTER_KIND that a rank sends. */
#include <mpi.h>
#include <stdlib.h>
#include <string.h>

int MPI_Send(const void *bytes, int count, MPI_Datatype type, int to, int tag, MPI_Comm comm) {
    static int sent;
    static unsigned char copy[300000];
    const char *kind = getenv("ALTER_KIND"), *which = getenv("ALTER");
    if (kind == NULL || which == NULL || tag != atoi(kind) || ++sent != atoi(which) || (size_t)count > sizeof copy)
        return PMPI_Send(bytes, count, type, to, tag, comm);
    memcpy(copy, bytes, (size_t)count);
    copy[count - 1] ^= 4;
    return PMPI_Send(copy, count, type, to, tag, comm);
}
