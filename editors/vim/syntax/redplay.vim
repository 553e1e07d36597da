" The textual notation of services that redplay reads. The words of each sort are those of its tables: editors/words.
if exists('b:current_syntax')
  finish
endif

syntax match redplayComment ,//.*$, contains=@Spell,redplayAllow
syntax match redplayAllow /lint: allow \S\+$/ contained
syntax match redplayNumber /-\?\<\d\+\>/
syntax region redplayString start=/"/ end=/"/
syntax region redplayOctets start=/'/ end=/'/ contains=redplayOctet,redplayNoOctet
syntax match redplayNoOctet /=/ contained
syntax match redplayOctet /=\x\x/ contained
syntax match redplayWrong /:\w\+/
syntax match redplayClass /:\%(Application\|BooleanVar\|ContentRefVar\|DynamicLineArt\|EntryField\|IntegerVar\|Link\|ListGroup\|OStringVar\|ObjectRefVar\|PushButton\|Rectangle\|ResidentPrg\|Scene\|Stream\|Text\|TokenGroup\)\>/
syntax match redplayAttribute /:\%(BackgroundColour\|CHook\|EventData\|EventSource\|EventType\|FontAttributes\|HJustification\|InitiallyActive\|InputEventReg\|Items\|LinkEffect\|MaxLength\|MovementTable\|MultipleSelection\|Name\|NextScenes\|ObjectInfo\|OnCloseDown\|OnStartUp\|OrigBoxSize\|OrigContent\|OrigFont\|OrigGCPriority\|OrigLabel\|OrigLineWidth\|OrigPosition\|OrigRefFillColour\|OrigRefLineColour\|OrigValue\|Positions\|SceneCS\|Shared\|StdID\|StdVersion\|TextColour\|TextWrapping\|TokenGroupItems\|WrapAround\)\>/
syntax match redplayAction /:\%(Activate\|Add\|AddItem\|Append\|BringToFront\|Call\|CallActionSlot\|Clear\|Deactivate\|DelItem\|Deselect\|DeselectItem\|Divide\|DrawLine\|DrawRectangle\|Fork\|GetAvailabilityStatus\|GetBoxSize\|GetCellItem\|GetEntryPoint\|GetFirstItem\|GetHighlightStatus\|GetInteractionStatus\|GetItemStatus\|GetLabel\|GetListItem\|GetListSize\|GetPosition\|GetRunningStatus\|GetTextData\|GetTokenPosition\|Launch\|LockScreen\|Modulo\|Move\|MoveTo\|Multiply\|Preload\|PutBefore\|PutBehind\|Quit\|Run\|ScrollItems\|Select\|SelectItem\|SendEvent\|SendToBack\|SetBoxSize\|SetData\|SetEntryPoint\|SetFillColour\|SetFirstItem\|SetHighlightStatus\|SetInputRegister\|SetInteractionStatus\|SetLabel\|SetLineColour\|SetLineWidth\|SetOverwriteMode\|SetPosition\|SetTextColour\|SetTimer\|SetVariable\|Stop\|Subtract\|TestVariable\|ToggleItem\|TransitionTo\|Unload\|UnlockScreen\)\>/
syntax match redplayKind /:\%(ContentRef\|GBoolean\|GContentRef\|GInteger\|GObjectRef\|GOctetString\|IndirectRef\)\>/
syntax keyword redplayEvent AsyncStopped ContentAvailable EngineEvent EntryFieldFull FirstItemPresented HeadItems HighlightOff HighlightOn InteractionCompleted IsAvailable IsDeleted IsDeselected IsRunning IsSelected IsStopped ItemDeselected ItemSelected LastItemPresented StreamEvent TailItems TestEvent TimerFired TokenMovedFrom TokenMovedTo UserInput
syntax keyword redplayValue centre end false start true

highlight default link redplayComment Comment
highlight default link redplayAllow SpecialComment
highlight default link redplayNumber Number
highlight default link redplayString Identifier
highlight default link redplayOctets String
highlight default link redplayOctet SpecialChar
highlight default link redplayNoOctet Error
highlight default link redplayWrong Error
highlight default link redplayClass Type
highlight default link redplayAttribute Label
highlight default link redplayAction Statement
highlight default link redplayKind Special
highlight default link redplayEvent Constant
highlight default link redplayValue Boolean

let b:current_syntax = 'redplay'
