"""The numbers of classes, attributes, actions and events (docs/PROFILE.md)."""

CLASSES = {name: number for number, name in enumerate(
    "Application Scene Link BooleanVar IntegerVar OStringVar ObjectRefVar ContentRefVar Rectangle Text DynamicLineArt ListGroup TokenGroup "
    "EntryField PushButton ResidentPrg Stream".split())}

ATTRIBUTES = {name: number for number, name in enumerate(
    "OnStartUp OnCloseDown Items InputEventReg SceneCS InitiallyActive Shared EventSource EventType EventData LinkEffect OrigValue OrigBoxSize "
    "OrigPosition OrigLineWidth OrigRefLineColour OrigRefFillColour OrigContent TextColour BackgroundColour HJustification TextWrapping MaxLength "
    "OrigLabel MovementTable TokenGroupItems Positions WrapAround MultipleSelection Name CHook OrigFont FontAttributes OrigGCPriority ObjectInfo "
    "StdID StdVersion NextScenes".split(), 1)}

ACTIONS = {name: number for number, name in enumerate(
    "Run Stop Preload Unload GetAvailabilityStatus GetRunningStatus SendEvent SetTimer Launch Quit LockScreen UnlockScreen TransitionTo "
    "SetInputRegister Activate Deactivate SetVariable TestVariable Add Subtract Multiply Divide Modulo Append Call Fork SetPosition GetPosition "
    "SetBoxSize GetBoxSize BringToFront SendToBack PutBefore PutBehind SetFillColour SetLineColour SetLineWidth Clear DrawLine DrawRectangle "
    "SetData GetTextData SetTextColour SetInteractionStatus GetInteractionStatus SetHighlightStatus GetHighlightStatus SetEntryPoint GetEntryPoint "
    "SetOverwriteMode Select Deselect SetLabel GetLabel Move MoveTo GetTokenPosition CallActionSlot AddItem DelItem ScrollItems SetFirstItem "
    "GetFirstItem SelectItem DeselectItem ToggleItem GetItemStatus GetListItem GetListSize GetCellItem".split())}

EVENTS = {"IsAvailable": 1, "ContentAvailable": 2, "IsDeleted": 3, "IsRunning": 4, "IsStopped": 5, "UserInput": 6, "TimerFired": 8,
          "AsyncStopped": 9, "InteractionCompleted": 10, "TokenMovedFrom": 11, "TokenMovedTo": 12, "StreamEvent": 13, "HighlightOn": 17,
          "HighlightOff": 18, "IsSelected": 21, "IsDeselected": 22, "TestEvent": 23, "FirstItemPresented": 24, "LastItemPresented": 25,
          "HeadItems": 26, "TailItems": 27, "ItemSelected": 28, "ItemDeselected": 29, "EntryFieldFull": 30, "EngineEvent": 31}
LATER = ("ContentAvailable", "UserInput", "TimerFired", "AsyncStopped", "InteractionCompleted", "StreamEvent", "EntryFieldFull", "EngineEvent")
JUSTIFICATIONS = {"start": 1, "end": 2, "centre": 3}

# The tags of what stands around values.
WRAPPERS = {"ContentRef": 60, "IndirectRef": 61, "GBoolean": 62, "GInteger": 63, "GOctetString": 64, "GObjectRef": 65, "GContentRef": 66}
ACTION_TAG = 100
