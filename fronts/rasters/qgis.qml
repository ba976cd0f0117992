<!DOCTYPE qgis PUBLIC 'http://mrcc.com/qgis.dtd' 'SYSTEM'>
<qgis><pipe><rasterrenderer type="paletted"><colorPalette><paletteEntry value="1" label="wood" color="#228b22" alpha="255"/><paletteEntry value="2" label="heath" color="#9acd32" alpha="255"/><paletteEntry value="3" label="moor" color="#123456" alpha="255"/></colorPalette></rasterrenderer></pipe></qgis>
