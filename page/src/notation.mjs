// The textual notation, as it is coloured: tokens with their sort, and where objects and places stand. What a text means is left
// to the module.

const TOKEN = /\/\/[^\n]*|"[^"\n]*"?|'(?:=[0-9A-Fa-f]{2}|[^'\n])*'?|:\w+|-?\d+|\b[A-Za-z]\w*\b|[{}()]/g;
// The words of the tables, which editors/words holds to them.
const CLASSES = new Set("Application BooleanVar ContentRefVar DynamicLineArt EntryField IntegerVar Link ListGroup OStringVar ObjectRefVar PushButton Rectangle ResidentPrg Scene Stream Text TokenGroup".split(" "));
const ATTRIBUTES = new Set("BackgroundColour CHook EventData EventSource EventType FontAttributes HJustification InitiallyActive InputEventReg Items LinkEffect MaxLength MovementTable MultipleSelection Name NextScenes ObjectInfo OnCloseDown OnStartUp OrigBoxSize OrigContent OrigFont OrigGCPriority OrigLabel OrigLineWidth OrigPosition OrigRefFillColour OrigRefLineColour OrigValue Positions SceneCS Shared StdID StdVersion TextColour TextWrapping TokenGroupItems WrapAround".split(" "));
const ACTIONS = new Set("Activate Add AddItem Append BringToFront Call CallActionSlot Clear Deactivate DelItem Deselect DeselectItem Divide DrawLine DrawRectangle Fork GetAvailabilityStatus GetBoxSize GetCellItem GetEntryPoint GetFirstItem GetHighlightStatus GetInteractionStatus GetItemStatus GetLabel GetListItem GetListSize GetPosition GetRunningStatus GetTextData GetTokenPosition Launch LockScreen Modulo Move MoveTo Multiply Preload PutBefore PutBehind Quit Run ScrollItems Select SelectItem SendEvent SendToBack SetBoxSize SetData SetEntryPoint SetFillColour SetFirstItem SetHighlightStatus SetInputRegister SetInteractionStatus SetLabel SetLineColour SetLineWidth SetOverwriteMode SetPosition SetTextColour SetTimer SetVariable Stop Subtract TestVariable ToggleItem TransitionTo Unload UnlockScreen".split(" "));
const KINDS = new Set("ContentRef GBoolean GContentRef GInteger GObjectRef GOctetString IndirectRef".split(" "));
const EVENTS = new Set("AsyncStopped ContentAvailable EngineEvent EntryFieldFull FirstItemPresented HeadItems HighlightOff HighlightOn InteractionCompleted IsAvailable IsDeleted IsDeselected IsRunning IsSelected IsStopped ItemDeselected ItemSelected LastItemPresented StreamEvent TailItems TestEvent TimerFired TokenMovedFrom TokenMovedTo UserInput".split(" "));
const VALUES = new Set("centre end false start true".split(" "));

function keywordSort(word) {
    if (CLASSES.has(word)) return "class";
    if (KINDS.has(word)) return "kind";
    if (ATTRIBUTES.has(word)) return "attribute";
    return ACTIONS.has(word) ? "action" : "unknown";
}

const wordSort = word => EVENTS.has(word) || VALUES.has(word) ? "word" : "unknown";

function tokenSort(token) {
    switch (token[0]) {
        case "/": return "comment";
        case "\"": return "name";
        case "'": return "octets";
        case ":": return keywordSort(token.slice(1));
        case "{": case "}": case "(": case ")": return "bracket";
        default: return /[-\d]/.test(token[0]) ? "number" : wordSort(token);
    }
}

/** The tokens of a text, each as [first, behind, sort]. */
export function tokensOf(text) {
    return [...text.matchAll(TOKEN)].map(found => [found.index, found.index + found[0].length, tokenSort(found[0])]);
}

/** Where the object with this number begins in a file's text, or -1. */
export function objectPlace(text, number) {
    if (number === 0) return text.search(/\{\s*:(Application|Scene)\b/);
    const found = new RegExp(`\\{\\s*:\\w+\\s+${number}\\b`).exec(text);
    return found ? found.index : -1;
}

export const isClass = word => CLASSES.has(word);

/** The index in a text of what stands at a byte of its UTF-8. */
export function indexOfByte(text, byte) {
    let bytes = 0, index = 0;
    for (const character of text) {
        if (bytes >= byte) break;
        const scalar = character.codePointAt(0);
        bytes += scalar < 0x80 ? 1 : scalar < 0x800 ? 2 : scalar < 0x10000 ? 3 : 4;
        index += character.length;
    }
    return index;
}

/** The index of a line and a column, both from 1 on. */
export function indexOfPlace(text, line, column) {
    let index = 0;
    for (let at = 1; at < line; at++) {
        const end = text.indexOf("\n", index);
        if (end < 0) return text.length;
        index = end + 1;
    }
    return Math.min(index + column - 1, text.length);
}
