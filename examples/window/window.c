/* A dashboard in a window: three gauges that run to the values which a thread posts, at the display's rate. SDL draws; the loop, its
 * messages and its frames are message_loop_posix's, and each gauge runs by an animator of animator.h.
 *
 *     window [SECONDS]       random values until it is closed, or for so long
 *     window SECONDS still   the values 25, 60 and 90 alone, for a screenshot
 *
 * As Android's views do, a gauge that changes asks for a traversal: a barrier holds back ordinary messages until the frame has drawn. */
#include "animator.h"
#include "message_loop_posix.h"

#include <SDL2/SDL.h>

#include <inttypes.h>
#include <math.h>
#include <pthread.h>
#include <stdatomic.h>
#include <stdio.h>
#include <stdlib.h>
#include <string.h>
#include <unistd.h>

enum { WIDTH = 640, HEIGHT = 240, GAUGES = 3, RUN_MS = 400 };

#define PI 3.14159265358979323846
#define PULSE UINT64_C(16666667)

static SDL_Window *window;
static SDL_Renderer *renderer;
static mlp_loop *loop;

/* ---- gauges, which run to their targets in the frames' animation phase */

typedef struct {
    mloop_animator run; /* of hundredths */
    double shown;
    bool runs;
} gauge;

static gauge gauges[GAUGES];
static uint64_t drawn, frames_late, last_frame;
static bool traversal;
static uint64_t barrier;

static void draw(uint64_t frame_time, void *user);

/* ViewRootImpl.scheduleTraversals */
static void invalidate(void)
{
    if (traversal || !mlp_barrier(loop, &barrier)) return;
    traversal = mlp_on_frame(loop, MLP_PHASE_TRAVERSAL, draw, NULL);
    if (!traversal) mlp_unbarrier(loop, barrier);
}

static void animate(uint64_t frame_time, void *user)
{
    gauge *it = user;
    mloop_value value = mloop_animator_frame(&it->run, frame_time);
    it->shown = value.value / 100.0;
    it->runs = value.kind == MLOOP_VALUE && mlp_on_frame(loop, MLP_PHASE_ANIMATION, animate, it);
    invalidate();
}

/* From what is shown to the target, ever slower, as by DecelerateInterpolator: with the next frame. */
static void run_to(gauge *it, double target)
{
    const double parts[] = {0, 0.4375, 0.75, 0.9375, 1};
    it->run = (mloop_animator){.duration = RUN_MS, .count = 5};
    for (uint32_t i = 0; i < 5; i++) it->run.keys[i] = (mloop_key){250 * i, (uint32_t)((it->shown + (target - it->shown) * parts[i]) * 100)};
    if (!it->runs) it->runs = mlp_on_frame(loop, MLP_PHASE_ANIMATION, animate, it);
}

/* ---- drawing */

static void ring(double x, double y, double inner, double outer, double to, SDL_Color color)
{
    enum { STEPS = 64 };
    SDL_Vertex points[2 * (STEPS + 1)];
    int corners[6 * STEPS], n = 0;
    for (int i = 0; i <= STEPS; i++) {
        double at = PI + PI * to / 100 * i / STEPS;
        for (int k = 0; k < 2; k++) {
            double r = k != 0 ? outer : inner;
            points[2 * i + k] = (SDL_Vertex){.position = {(float)(x + r * cos(at)), (float)(y + r * sin(at))}, .color = color};
        }
        if (i < STEPS) {
            const int quad[6] = {2 * i, 2 * i + 1, 2 * i + 2, 2 * i + 1, 2 * i + 2, 2 * i + 3};
            memcpy(&corners[n], quad, sizeof quad);
            n += 6;
        }
    }
    SDL_RenderGeometry(renderer, NULL, points, 2 * (STEPS + 1), corners, n);
}

static void draw_gauge(const gauge *it, double x, double y)
{
    SDL_Color scale = {50, 55, 70, 255}, value = {(Uint8)(60 + 1.9 * it->shown), (Uint8)(220 - 1.5 * it->shown), 90, 255};
    ring(x, y, 66, 90, 100, scale);
    ring(x, y, 66, 90, it->shown, value);
    double at = PI + PI * it->shown / 100;
    SDL_SetRenderDrawColor(renderer, 240, 240, 240, 255);
    for (int d = -2; d <= 2; d++) SDL_RenderDrawLine(renderer, (int)x + d, (int)y, (int)(x + 62 * cos(at)) + d, (int)(y + 62 * sin(at)));
}

static void draw(uint64_t frame_time, void *user)
{
    (void)user;
    traversal = false;
    mlp_unbarrier(loop, barrier);
    if (last_frame != 0 && frame_time - last_frame > PULSE + PULSE / 2 && frame_time - last_frame < 20 * PULSE) frames_late++;
    last_frame = frame_time;
    SDL_SetRenderDrawColor(renderer, 16, 18, 24, 255);
    SDL_RenderClear(renderer);
    for (int i = 0; i < GAUGES; i++) draw_gauge(&gauges[i], 110 + 210 * i, 170);
    SDL_RenderPresent(renderer);
    drawn++;
}

/* ---- messages */

enum { VALUE, END, EVENTS };

static void handle(mlp_handler *self, const mlp_message *message)
{
    switch (message->what) {
    case VALUE: run_to(&gauges[message->arg / 128], message->arg % 128); break;
    case END: mlp_quit(loop, true); break;
    case EVENTS: /* SDL's events have no descriptor: they are looked at 50 times a second */
        for (SDL_Event event; SDL_PollEvent(&event) != 0;) {
            if (event.type == SDL_QUIT) mlp_quit(loop, true);
            if (event.type == SDL_WINDOWEVENT && event.window.event == SDL_WINDOWEVENT_EXPOSED) invalidate();
            if (event.type == SDL_MOUSEBUTTONDOWN) run_to(&gauges[event.button.x * GAUGES / WIDTH], event.button.y * 100.0 / HEIGHT);
        }
        mlp_send_delayed(self, EVENTS, 0, NULL, 20);
        break;
    }
}

static mlp_handler handler = {.handle = handle};
static atomic_bool over;

static void *measure(void *user)
{
    (void)user;
    for (unsigned seed = 7; !over; usleep(60000)) mlp_send(&handler, VALUE, (uint32_t)(rand_r(&seed) % GAUGES * 128 + rand_r(&seed) % 101), NULL);
    return NULL;
}

int main(int argc, char **argv)
{
    double seconds = argc > 1 ? atof(argv[1]) : 0;
    bool still = argc > 2 && strcmp(argv[2], "still") == 0;
    if (SDL_Init(SDL_INIT_VIDEO) != 0 || (window = SDL_CreateWindow("dashboard", 0, 0, WIDTH, HEIGHT, 0)) == NULL ||
        (renderer = SDL_CreateRenderer(window, -1, SDL_RENDERER_SOFTWARE)) == NULL) {
        fprintf(stderr, "window: %s\n", SDL_GetError());
        return 1;
    }
    loop = mlp_new(PULSE);
    if (loop == NULL || !mlp_handler_open(loop, &handler)) return 1;
    mlp_send(&handler, EVENTS, 0, NULL);
    if (seconds > 0) mlp_send_delayed(&handler, END, 0, NULL, (uint64_t)(seconds * 1000));
    pthread_t thread;
    if (still) {
        const uint32_t values[GAUGES] = {25, 60, 90};
        for (uint32_t i = 0; i < GAUGES; i++) mlp_send(&handler, VALUE, i * 128 + values[i], NULL);
    } else if (pthread_create(&thread, NULL, measure, NULL) != 0) {
        return 1;
    }
    uint64_t from = mlp_now_ns();
    mlp_run(loop);
    double took = (double)(mlp_now_ns() - from) / 1e9;
    over = true;
    if (!still) pthread_join(thread, NULL);
    printf("%" PRIu64 " frames drawn in %.2f s, %.1f a second, %" PRIu64 " of them late\n", drawn, took, (double)drawn / took, frames_late);
    mlp_free(loop);
    SDL_DestroyRenderer(renderer);
    SDL_DestroyWindow(window);
    SDL_Quit();
    return drawn > 0 ? 0 : 1;
}
