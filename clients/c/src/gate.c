/* The gate between threads that convert and fork().
 *
 * Why nobody is inside while the gate is closed: who goes in says so first and looks at the gate then, and who closes it does so first
 * and looks at the passes then. So one of the two sees the other. */
#include "gate.h"

void gate_begin(struct gate *gate) {
    pthread_mutex_init(&gate->forking, NULL);
    pthread_mutex_init(&gate->mutex, NULL);
    pthread_cond_init(&gate->left, NULL);
}

void gate_end(struct gate *gate) {
    pthread_mutex_destroy(&gate->forking);
    pthread_mutex_destroy(&gate->mutex);
    pthread_cond_destroy(&gate->left);
}

void gate_add(struct gate *gate, struct pass *pass) {
    pass->gate = gate;
    pass->next = gate->passes;
    gate->passes = pass;
}

void gate_leave(struct pass *pass) {
    struct gate *gate = pass->gate;
    atomic_store(&pass->inside, false);
    if (!gate || !atomic_load(&gate->closed))
        return;
    pthread_mutex_lock(&gate->mutex);
    pthread_cond_signal(&gate->left);
    pthread_mutex_unlock(&gate->mutex);
}

void gate_enter(struct pass *pass) {
    struct gate *gate = pass->gate;
    atomic_store(&pass->inside, true);
    while (gate && atomic_load(&gate->closed)) {
        gate_leave(pass);
        pthread_mutex_lock(&gate->forking);
        pthread_mutex_unlock(&gate->forking);
        atomic_store(&pass->inside, true);
    }
}

void gate_close(struct gate *gate) {
    pthread_mutex_lock(&gate->forking);
    atomic_store(&gate->closed, true);
    pthread_mutex_lock(&gate->mutex);
    for (struct pass *pass = gate->passes; pass; pass = pass->next)
        while (atomic_load(&pass->inside))
            pthread_cond_wait(&gate->left, &gate->mutex);
    pthread_mutex_unlock(&gate->mutex);
}

void gate_open(struct gate *gate) {
    atomic_store(&gate->closed, false);
    pthread_mutex_unlock(&gate->forking);
}

void gate_renew(struct gate *gate) {
    for (struct pass *pass = gate->passes; pass; pass = pass->next)
        atomic_store(&pass->inside, false);
    atomic_store(&gate->closed, false);
    gate_begin(gate);
}
