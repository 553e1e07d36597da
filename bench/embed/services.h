/* Two services, for what tries the archive. */
#ifndef SERVICES_H
#define SERVICES_H

#include "../../include/redplay.h"
#include <string.h>

#define SOURCE(name, content) \
    {(const uint8_t *)(name), sizeof(name) - 1, (const uint8_t *)(content), sizeof(content) - 1}

#define APPLICATION "{:Application (\"~/a\" 0) :OnStartUp ( :TransitionTo ((\"~/s\" 0)) )}"
#define BOX \
    " {:Rectangle 10 :OrigBoxSize 24 32 :OrigPosition 12 16 :OrigLineWidth 0 :OrigRefFillColour '=FF=00=00=00' }"
#define ON_RED(actions) " {:Link 11 :EventSource 0 :EventType UserInput :EventData 100 :LinkEffect (" actions ") }"

/* A box, and a line that a file has; on red a scene comes in, of which the file is late. */
static const redplay_source plain[4] = {
    SOURCE("a", APPLICATION),
    SOURCE("s", "{:Scene (\"~/s\" 0) :InputEventReg 3 :SceneCS 720 576 :Items (" BOX
                " {:Text 12 :OrigBoxSize 120 16 :OrigPosition 0 160 :OrigContent :ContentRef (\"~/line\") }"
                ON_RED(":SetPosition (10 24 16) :TransitionTo ((\"~/t\" 0))") ")}"),
    SOURCE("t", "{:Scene (\"~/t\" 0) :InputEventReg 3 :SceneCS 720 576 :Items ("
                " {:Text 1 :OrigBoxSize 120 16 :OrigPosition 0 80 :OrigContent 'late' })}"),
    SOURCE("line", "A"),
};
static const uint8_t *const late = (const uint8_t *)"t";

/* The box is moved on red, and then one that is not there. */
static const redplay_source faulty[2] = {
    SOURCE("a", APPLICATION),
    SOURCE("s", "{:Scene (\"~/s\" 0) :InputEventReg 3 :SceneCS 720 576 :Items (" BOX
                ON_RED(":SetPosition (99 24 16) :SetPosition (10 24 16)") ")}"),
};

#endif
